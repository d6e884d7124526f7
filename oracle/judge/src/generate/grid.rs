//! A grid of places, each in a box. A joined box has several places.

/// A rectangle of places; right and bottom are exclusive.
#[derive(Debug, Clone, Copy, PartialEq, Eq)]
pub struct Places {
    pub left: usize,
    pub top: usize,
    pub right: usize,
    pub bottom: usize,
}

impl Places {
    pub fn new(left: usize, top: usize, right: usize, bottom: usize) -> Self {
        Self { left, top, right, bottom }
    }

    fn has(&self, x: usize, y: usize) -> bool {
        (self.left..self.right).contains(&x) && (self.top..self.bottom).contains(&y)
    }

    /// All places, row by row.
    pub fn each(self) -> impl Iterator<Item = (usize, usize)> {
        (self.top..self.bottom).flat_map(move |y| (self.left..self.right).map(move |x| (x, y)))
    }
}

/// The grid: the number of the box at each place, and the lines of text of each box.
#[derive(Debug, Clone, Default)]
pub struct Grid {
    pub boxes: Vec<Vec<usize>>,
    pub texts: Vec<Vec<String>>,
}

impl Grid {
    /// A grid in which every place is a box of its own.
    pub fn new(columns: usize, rows: usize) -> Self {
        let row = |y: usize| (0..columns).map(|x| y * columns + x).collect();
        Self { boxes: (0..rows).map(row).collect(), texts: vec![vec![]; columns * rows] }
    }

    pub fn rows(&self) -> usize {
        self.boxes.len()
    }

    pub fn columns(&self) -> usize {
        self.boxes.first().map_or(0, Vec::len)
    }

    /// All places of the grid.
    pub fn all(&self) -> Places {
        Places::new(0, 0, self.columns(), self.rows())
    }

    /// Makes one box of a rectangle, if no box stands halfway in it.
    pub fn join(&mut self, places: Places) {
        let inside: Vec<usize> = places.each().map(|(x, y)| self.boxes[y][x]).collect();
        let mut outside = self.all().each().filter(|(x, y)| !places.has(*x, *y));
        if inside.is_empty() || outside.any(|(x, y)| inside.contains(&self.boxes[y][x])) {
            return;
        }
        for (x, y) in places.each() {
            self.boxes[y][x] = inside[0];
        }
    }

    /// Joins each column of a rectangle to one box.
    pub fn join_columns(&mut self, places: Places) {
        for x in places.left..places.right {
            self.join(Places { left: x, right: x + 1, ..places });
        }
    }

    /// A new box without text.
    fn new_box(&mut self) -> usize {
        self.texts.push(vec![]);
        self.texts.len() - 1
    }

    /// Adds a column of new boxes on the left.
    pub fn add_first_column(&mut self) {
        for y in 0..self.rows() {
            let number = self.new_box();
            self.boxes[y].insert(0, number);
        }
    }

    /// Adds a row of new boxes at the bottom.
    pub fn add_last_row(&mut self) {
        let row = (0..self.columns()).map(|_| self.new_box()).collect();
        self.boxes.push(row);
    }

    /// Row i, column j becomes row j, column i.
    pub fn turn(&mut self) {
        let column = |x: usize| self.boxes.iter().map(|row| row[x]).collect();
        self.boxes = (0..self.columns()).map(column).collect();
    }

    /// Sets the lines of the box at a place.
    pub fn write(&mut self, x: usize, y: usize, lines: Vec<String>) {
        let number = self.boxes[y][x];
        self.texts[number] = lines;
    }

    /// The boxes of the grid with the places that they cover.
    pub fn extents(&self) -> Vec<(usize, Places)> {
        let mut extents: Vec<Option<Places>> = vec![None; self.texts.len()];
        for (x, y) in self.all().each() {
            let extent = &mut extents[self.boxes[y][x]];
            *extent = Some(match *extent {
                None => Places::new(x, y, x + 1, y + 1),
                Some(e) => Places::new(e.left.min(x), e.top, e.right.max(x + 1), y + 1),
            });
        }
        let numbered = extents.into_iter().enumerate();
        numbered.filter_map(|(number, extent)| extent.map(|extent| (number, extent))).collect()
    }
}
