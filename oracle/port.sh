# Sourced by ./run, fuzz/run, ../bench/run and ../bindings/run, from a folder of the repository: builds the port's static library and tells
# its folder in PORT_LIB. Where PORT_LIB is set, the libexports.a of that folder is taken and none is built.
if [ -z "${PORT_LIB:-}" ]; then
  PORT_LIB=$(../tools/library)
  export PORT_LIB
fi
