# The kit's command `rt` must be on the path (README.md, "Get it, build it, run it").
RT ?= rt
# The gate as `make test` runs it.
GATE ?= $(RT) ci
# The built server: `make demo` proves and builds it, as the gate does, and `rt run` in crates/bridge_server.
PROGRAM ?= crates/bridge_server/out/bridge_server
PORT ?= 8080
# What `make serve` keeps: started again it goes on with the evening. Remove the file, and its log beside it, to begin a new one.
JOURNAL ?= out/serve.journal
PAGE_PORT ?= 8000

.PHONY: demo quick page serve demo-page test test-fast test-page

# Proves and builds all that the program stands on, answers the two example scripts, and says what was seen. The gate counts
# what this proved on the same machine.
demo:
	python3 tests/build_program.py bridge_server "$(RT)"
	python3 examples/say_answers.py examples/one_board.script --by $(PROGRAM)
	python3 examples/say_answers.py examples/first_round.script --by $(PROGRAM)

# The same before any proof: it shows what the program does, and proves nothing.
quick:
	mkdir -p out
	cd crates/bridge_server && $(RT) try -- script < ../../examples/one_board.script > ../../out/one_board.answers
	python3 examples/say_answers.py examples/one_board.script out/one_board.answers
	cd crates/bridge_server && $(RT) try -- script < ../../examples/first_round.script > ../../out/first_round.answers
	python3 examples/say_answers.py examples/first_round.script out/first_round.answers
	@echo "Nothing was proved: make demo proves it all."

# The page's files as they are served, each with its compressed form beside it, which is handed out to browsers in its place.
page:
	rm -rf out/page
	mkdir -p out/page
	cp -r client/index.html client/icon.svg client/*.js client/styles client/views out/page
	find out/page -type f -exec gzip -9nk {} +

# The example session with the page, on this computer, until Ctrl-C.
serve: $(PROGRAM) page
	$(PROGRAM) serve --session examples/session.json --deals examples/club.pbn --journal $(JOURNAL) --displays 16 --port $(PORT) --page out/page

# The same to try the page out: it begins anew each time, and it is said who signs in.
demo-page: $(PROGRAM) page
	rm -f out/demo.journal out/demo.journal-wal
	@echo "The page is at http://127.0.0.1:$(PAGE_PORT)/ until you press Ctrl-C. Sign in as anna (North in NS1), rosa (East in EW1),"
	@echo "carla (North in NS2), vera (watches), sam (enters and confirms results), dora (directs) or ada (administers); the token of"
	@echo "each is the name with -example behind it, as sam-example. Open it in two windows, as sam and as anna: enter and confirm"
	@echo "board 1 at table 1, and see it open for anna."
	$(PROGRAM) serve --session examples/session.json --deals examples/club.pbn --journal out/demo.journal --displays 16 --port $(PAGE_PORT) --workers 1 --page out/page

$(PROGRAM):
	@echo "make demo builds $(PROGRAM)."; exit 1

# The gate, the cheap checks of the pages, and then the built programs: want of memory at each growth, clients over real
# sockets, and the page in a browser (README.md, "Checking it", says what they need). The last line is `N passed, M failed`. With
# MINUTES=160 no check of a built program begins later than so many minutes after the gate did, and what isn't run is told.
test:
	python3 tests/all_checks.py "$(GATE)" --built $(MINUTES:%=--minutes=%)

# The checks that need no program, and after a gate the short ones of built programs: no browser, no socket, two minutes at most.
test-fast:
	python3 tests/all_checks.py --fast

# The page's own tests: its plain functions, and a session in Chromium (client/README.md says what they need).
test-page: $(PROGRAM)
	node --test client/tests/
	/usr/bin/python3 tests/browser/page_session.py $(PROGRAM)
