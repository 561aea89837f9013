# The repository's commands. Bare `make` lists them.
.PHONY: help test demo try program bench man install clean

program = crates/vnetsh/out/vnetsh
PREFIX ?= /usr/local
script ?= examples/lab.vnet
export script

help:
	@echo 'make try      compile without a proof and run examples/lab.vnet, or script=FILE (30 s; at most 1 MiB of output, 60 s)'
	@echo 'make demo     prove the program, build it and run the same (10 minutes once, then a second)'
	@echo 'make test     the gate: every proof, the must-fail edits, the tests (30 to 60 minutes once)'
	@echo 'make program  prove and build $(program)'
	@echo 'make bench    prove and build the benchmark of checksums'
	@echo 'make man      show the manual page'
	@echo 'make install  put program and manual page below $$DESTDIR$$PREFIX ($(PREFIX))'
	@echo 'make clean    remove what checks and builds left in crates/*/out'

# The gate; its last line is 'N passed, M failed'.
test:
	@rt ci

demo: readable program
	@$(program) run < "$$script" || echo "exit status $$?"

try: readable
	@exec < "$$script" && cd crates/vnetsh && { rt try -- run || echo "exit status $$?"; }

# A script that can't be read is told before anything is proved.
.PHONY: readable
readable:
	@test -r "$$script" && ! test -d "$$script" || { echo "can't read the script $$script" >&2; exit 1; }

program:
	@cd crates/vnetsh && rt run -- run < /dev/null > /dev/null

bench:
	@cd crates/vn_bench && rt run > /dev/null

man:
	@man ./docs/vnetsh.1

install: program
	install -d '$(DESTDIR)$(PREFIX)/bin' '$(DESTDIR)$(PREFIX)/share/man/man1'
	install -m 755 $(program) '$(DESTDIR)$(PREFIX)/bin/vnetsh'
	install -m 644 docs/vnetsh.1 '$(DESTDIR)$(PREFIX)/share/man/man1/vnetsh.1'

clean:
	rm -rf crates/*/out
