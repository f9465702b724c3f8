# make, make check, make install, make uninstall, make clean: the library for C and the programs, and the tests of every face.
# make python, rust, javascript, postgres, sqlite: what is made for one of them. Each is a line over what stands in its folder,
# which says more; variables such as prefix, DESTDIR and CC go on to it.
all install uninstall clean:
	$(MAKE) -C dist $@
check:
	./check
python:
	python3 -m pip install ./python
rust:
	cargo build --release --manifest-path rust/Cargo.toml
javascript:
	javascript/pack.sh dist/wasm/wkt.wasm dist/out
postgres sqlite:
	$(MAKE) -C $@
.PHONY: all install uninstall clean check python rust javascript postgres sqlite
