# make run: the main job. make test: the whole gate. make compare: sheetrun against the second program, on more sheets.
# make bench: the speed of our calls against the second program's. Each says on standard error what is being proved.
# For hosts in C: make lib: the archive. make install PREFIX=..: archive and header where a compiler finds them. make host: the example host, built and run.
.PHONY: run test compare bench prove clean lib install host
SHEET = examples/whole.sheet
N = 100000
SEED = 1
PREFIX = /usr/local
to = $(DESTDIR)$(abspath $(PREFIX))
archive = target/staticlib/liblobrinkas.a
archived = tests/archive
# said where somebody meets the archive on a machine that can't run it
elsewhere = case $$(uname -m) in x86_64) ;; *) echo "$(archive) is for x86-64 Linux, and this machine is $$(uname -m)" ;; esac

run:
	@tests/link sheetrun
	@tests/run-program target/bin/sheetrun <$(SHEET)

# what the prover said is shown where it fails
prove:
	@mkdir -p target && { tests/proving check >target/said || { cat target/said; false; }; }

test:
	@tests/gate

compare:
	@tests/link sheetrun
	@tests/compare $(N) $(SEED)

bench:
	@tests/link sheetrun benchrun
	@$(archived)
	@bench/bench

lib:
	@$(archived)
	@echo "$(archive) is proved and built, for x86-64 Linux"
	@$(elsewhere)

# the archive as make lib left it, so that whoever installs need not be able to prove
install:
	@[ -f $(archive) ] || { $(archived); }
	@version=$$(sed -n 's/^#define LOBRINKAS_VERSION "\(.*\)"$$/\1/p' include/lobrinkas.h) && \
	    sed -e 's|@PREFIX@|$(abspath $(PREFIX))|' -e "s|@VERSION@|$$version|" include/lobrinkas.pc.in >target/lobrinkas.pc
	@install -d "$(to)/include" "$(to)/lib/pkgconfig"
	@install -m 644 include/lobrinkas.h "$(to)/include"
	@install -m 644 $(archive) "$(to)/lib"
	@install -m 644 target/lobrinkas.pc "$(to)/lib/pkgconfig"
	@echo "$(to) has include/lobrinkas.h, lib/liblobrinkas.a and lib/pkgconfig/lobrinkas.pc"
	@$(elsewhere)

host:
	@$(archived)
	@mkdir -p target/bin
	@tests/c-program target/bin/host gcc -std=c11 -O2 -Wall -Wextra -Iinclude examples/host.c $(archive)
	@tests/run-program target/bin/host

clean:
	rm -rf target crates/*/out
