# Each goal calls what is there, which says more:
#
#   make test       all tests of the crates, without a proof (./qolb --test)
#   make prove      proves and builds the program (./qolb --prove)
#   make gate       the gate (.ci/run)
#   make check      the tests of the C library (make -C c check)
#   make fmt        lays out the crates' sources (rt fmt), and C and C++ (clang-format 14, by .clang-format)
#   make fmt-check  whether C and C++ are laid out so
#   make install    the library for C, C++ and Rust (make -C c install, with its PREFIX, LIBDIR and DESTDIR)
.PHONY: test prove gate check fmt fmt-check install
WANT_RT = $(if $(shell command -v rt 2>/dev/null),,$(error rt, the command of the Rattle kit, is not on the path: install the kit))

test prove:
	./qolb --$@

gate:
	$(WANT_RT)
	.ci/run

check install:
	$(MAKE) -C c $@

fmt:
	$(WANT_RT)
	for crate in crates/*/; do (cd $$crate && rt fmt) || exit 1; done
	clang-format -i $$(git ls-files '*.c' '*.h' '*.cpp' '*.hpp')

fmt-check:
	clang-format --dry-run -Werror $$(git ls-files '*.c' '*.h' '*.cpp' '*.hpp')
