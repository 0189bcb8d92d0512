# build    the proved program, as ./hakyll_cli
# install  the same under PREFIX, /usr/local where none is given, with a manual page and completions for bash, zsh and fish
# uninstall   takes these away from PREFIX
# demo     builds the example site in out/demo and prints its pages
# test     the gate: every proof, test and must-fail edit, and the end-to-end cases
# allocations   lets each allocation of a build fail in turn, by one worker and by four, in the proved program; it wants a C
#          compiler, and is not part of the gate
# limits   builds sites as large as the limits let them be, each in seconds of its own; it is not part of the gate
# clean    takes away what the others made
PREFIX = /usr/local
program = crates/hk_cli/out/hk_cli
sources = $(shell find crates -type f -not -path '*/out/*' -not -path '*/must-fail/*')

.PHONY: build install uninstall demo test allocations limits clean

build: hakyll_cli

hakyll_cli: $(program)
	cp $(program) $@

# `rt run` proves the crates, links the program and runs it; with a word that is no command it prints its usage.
$(program): crates.txt HANDLES $(sources)
	cd crates/hk_cli && case "$$(rt run -- help)" in usage:*) ;; *) exit 1 ;; esac
	touch $@

install: build
	share/install "$(DESTDIR)$(PREFIX)" hakyll_cli

uninstall:
	share/install --remove "$(DESTDIR)$(PREFIX)"

# The proved program where it stands and is as new as its sources, and else an unproved build.
demo:
	@rm -rf out/demo
	@if $(MAKE) -q $(program) >/dev/null 2>&1; then examples/demo out/demo $(program); else examples/demo out/demo; fi

test:
	.ci/run

allocations: $(program)
	tests/allocations $(program)

limits: $(program)
	tests/limits $(program)

clean:
	rm -rf hakyll_cli out crates/*/out
