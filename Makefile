.PHONY: all demo try check test test-python edits install uninstall page package wheel release proofs proofs-from \
	proofs-forget libraries bench peers instructions pictures

PREFIX ?= $(HOME)/.local
PROGRAM := crates/basket_cli/out/basket_cli
STAGES := crates/basket_bench/out/basket_bench
YARDSTICK := bench/out/yardstick
SPREAD := bench/out/spread.so
TESTS := crates/basket_checks/% crates/basket_runs/%
SOURCES := crates.txt $(filter-out $(TESTS),$(shell find crates -name out -prune -o -type f \( -name '*.rt' -o -name '*.antt' \) -print))
PLACE := $(DESTDIR)$(PREFIX)

# Proves and builds the program, if that is not done, on all processors. A second make goes on where one failed.
all: $(PROGRAM)

$(PROGRAM): $(SOURCES)
	tools/prove.py basket_cli

# Builds the program without its proofs and runs it over examples/.
demo:
	tools/demo.py

# Builds the program without its proofs, if it isn't built so already, and runs it over a file of yours, as
#     make try FILE=receipts.csv WORDS="rules --min 1% --conf 1/2 --form single --header"
#     make try FILE=shop.dat SETS=found.txt WORDS="count"
# Standard output is the report alone.
try:
	@tools/try.py $(if $(SETS),--sets "$(SETS)") "$(FILE)" $(WORDS)

# Builds the program without its proofs, and runs the tests of the program, the page and the Python package over it.
check:
	tools/test.py --check

# The gate: proves every crate and its tests, and tests the program, the page and the Python package.
test:
	tools/test.py

# Tries the must-fail edits, and writes into crates/refused.txt over which text each was refused. With CRATES="NAME .."
# those of these crates alone, over what `rt check` kept of them.
edits:
	tools/edits.py $(CRATES)

# The tests of the Python package alone, over the program that is built or that BASKET names.
test-python: $(if $(BASKET),,$(PROGRAM))
	tools/test.py --python

# Puts the program, its manual page and its completions below PREFIX. Like package, wheel and bench, it proves and
# builds the program first, if that is not done.
install: $(PROGRAM)
	install -D -m 755 $(PROGRAM) $(PLACE)/bin/basket
	install -D -m 644 man/basket.1 $(PLACE)/share/man/man1/basket.1
	install -D -m 644 completions/basket.bash $(PLACE)/share/bash-completion/completions/basket
	install -D -m 644 completions/_basket $(PLACE)/share/zsh/site-functions/_basket
	install -D -m 644 completions/basket.fish $(PLACE)/share/fish/vendor_completions.d/basket.fish

uninstall:
	rm -f $(PLACE)/bin/basket $(PLACE)/share/man/man1/basket.1 $(PLACE)/share/bash-completion/completions/basket \
		$(PLACE)/share/zsh/site-functions/_basket $(PLACE)/share/fish/vendor_completions.d/basket.fish

# The page with the proved program in it, dist/basket.html, which mines in a browser.
page:
	tools/page.py

# A Debian package and a tar file of the proved program, with the page, under dist/.
package: $(PROGRAM) page
	tools/package.py

# The Python package with the proved program and its page in it, under dist/.
wheel: $(PROGRAM) page
	tools/wheel.py

# All files of a release, under dist/: these, the proofs, and what tells of them. TRIAL=1 makes them of a text that is no
# release, as of a version with -dev.
release: $(PROGRAM) page
	tools/release.py $(if $(TRIAL),--trial)

# What this machine keeps of the proofs of this commit, as a file under dist/.
proofs: $(PROGRAM)
	tools/proofs.py pack

# Takes the proofs of such a file, as `make proofs-from FILE=proofs-..`: a later make doesn't prove these again, and says
# that they were proved elsewhere. The gate takes none of them.
proofs-from:
	tools/proofs.py take "$(FILE)"

proofs-forget:
	tools/proofs.py forget

# Puts the libraries that make proved where `rt check` looks for them, which else proves the crates below once more.
libraries:
	tools/proofs.py libraries

# The pictures of docs/GUIDE.md and README, from examples/. BASKET and PAGE name another program and page.
pictures: $(if $(BASKET),,$(PROGRAM)) $(if $(PAGE),,page)
	tools/python-packages
	/usr/bin/python3 tools/pictures.py

$(STAGES): $(SOURCES)
	tools/prove.py basket_bench

# What a C++ program takes for the same work.
$(YARDSTICK): bench/yardstick.cpp
	mkdir -p $(@D)
	$(CXX) -O3 -march=x86-64-v2 -std=c++17 -o $@ $<

# Puts each thread of a program on a processor of its own.
$(SPREAD): bench/spread.c
	mkdir -p $(@D)
	$(CC) -O2 -shared -fPIC -o $@ $< -ldl

# Times the program, beside the C++ program, its stages, the Python package and the page, and writes bench/RESULTS.md.
# It wants valgrind and an idle machine; bench/COST.md says how long it takes. With DATA=FOLDER it times the miners over
# the files NAME.dat of a folder instead, as those of the FIMI repository, and writes nothing.
ifdef DATA
bench: $(if $(BASKET),,$(PROGRAM))
	bench/run.py $(or $(BASKET),$(PROGRAM)) --data "$(DATA)"
else
bench: $(PROGRAM) $(STAGES) $(YARDSTICK) $(SPREAD) page
	tools/python-packages
	bench/run.py $(PROGRAM) --beside $(YARDSTICK) --spread $(SPREAD) --stages $(STAGES) --frames bench/frames.py \
		--cluster bench/cluster.py --page bench/in_browser.py
endif

# Weka and ELKI over inputs of the bench beside the program, and whether the sets of each are right. It wants their
# Debian packages: bench/peers/peers.py says which.
peers: $(if $(BASKET),,$(PROGRAM))
	bench/peers/peers.py $(or $(BASKET),$(PROGRAM))

# Counts the instructions of the commands of bench/RESULTS.md, which are the same on any load, and tells which take more
# than 3% more than that page says.
instructions: $(if $(BASKET),,$(PROGRAM))
	bench/run.py $(or $(BASKET),$(PROGRAM)) --instructions
