# `make` proves and builds the programs, `make test` is the merge gate with the rows of rows/ behind it, `make rows` plays these alone,
# `make hostile` plays sessions while memory is refused, devices fail and signals come, `make trusted` prints what has to be believed,
# `make dear` tells what the proofs cost, `make attack` tries further wrong bodies, `make bench` prints figures, `make editors` copies what
# the editors need into the user's folders.
# `make dist` and `make deb` pack the programs for machines without the toolchain, or those that are built already: PROGRAM=PATH CHECKER=PATH.
PREFIX ?= $(HOME)/.local
NAME ?=
PROGRAM ?=
CHECKER ?=
EDITORS ?=

.PHONY: all test rows hostile install editors dist deb trusted dear attack bench

all:
	python3 bench/build.py

test:
	python3 bench/gate.py

rows:
	python3 rows/play.py

hostile:
	python3 bench/memory.py
	python3 bench/process.py

install: all
	install -D crates/lam_server/out/lam_server $(PREFIX)/bin/lam_server
	install -D crates/lam_check/out/lam_check $(PREFIX)/bin/lam_check
	python3 package/manual.py $(PREFIX)/bin/lam_server $(PREFIX)/share/man/man1
	python3 rows/play.py --show --program $(PREFIX)/bin/lam_server rows/example.rows
	@case ":$$PATH:" in *":$(PREFIX)/bin:"*) ;; *) echo "$(PREFIX)/bin is not on your PATH: add it";; esac

editors:
	@python3 editors/install.py $(EDITORS)

dist deb: $(if $(PROGRAM),,all)
	python3 package/package.py $@ $(if $(PROGRAM),--program "$(PROGRAM)") $(if $(CHECKER),--checker "$(CHECKER)")

trusted:
	@python3 bench/trusted.py

dear:
	python3 bench/dear.py $(NAME)

attack:
	python3 bench/attack.py $(NAME)

bench: all
	cd crates/lam_bench && rt run
	for size in 1048576 16777216 67108864; do \
	  crates/lam_bench/out/lam_bench whole-body $$size; \
	  crates/lam_bench/out/lam_bench body-by-bytes $$size; \
	done
	for count in 10000 100000 1000000; do crates/lam_bench/out/lam_bench small-frames $$count; done
	for size in 1048576 16777216; do for letters in ascii umlauts; do \
	  for measure in open edit offsets positions; do \
	    crates/lam_bench/out/lam_bench $$measure-$$letters $$size; \
	  done; \
	done; done
	for count in 10 100 1000 4000; do crates/lam_bench/out/lam_bench add-type $$count; done
	crates/lam_bench/out/lam_bench bounds 40
	python3 bench/session.py crates/lam_server/out/lam_server
	python3 bench/corners.py crates/lam_server/out/lam_server
