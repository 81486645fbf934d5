# make run      the main job: document 01's example tape, made from text, worked, and shown with its answers; the published row judged; and a page
#               record written, listed, opened, and refused where a byte of it is altered
# make test     the gate
# make lib      the static library and its header, to target/dist
# make example  builds the library and runs examples/page.c, convert.c, record.c and keys.c over it
# make compare  the library against the archivists' program; ARCHIVIST='command' for another program, SEED=number to repeat a run
# make bench    times the proved code against C, and against OpenSSL's Camellia and ARIA where it is installed
# make wrong    runs the wrong programs that the must-fail edits make, unproved, and shows of each a case that it answers wrongly; ONLY='crate crate/label'
# make paper    the paper for the successor for print, to target/OPENING-A-PAGE.pdf
.PHONY: run test lib example compare bench wrong paper
COMPILE = gcc -std=c99 -Wall -Wextra -Wpedantic -I target/dist

run:
	mkdir -p target
	tools/write_tape tools/example.txt >target/example.tape
	cd crates/tape_program && rt run <../../target/example.tape >../../target/example.answers
	@echo "the $$(wc -c <target/example.answers) bytes of the answers:"
	@od -A n -v -t x1 target/example.answers
	tools/show_tape target/example.tape target/example.answers
	@echo "crates/judge_row/out/judge_row judges rows, sixteen hexadecimal digits each, on its standard input; the published one:"
	cd crates/judge_row && echo 01 01 03 0F 0A 1F 0F 0C | rt run
	$(MAKE) -s lib
	@echo "examples/record.c writes a page record, lists it without a key and opens it; then it alters one byte, which opening is to refuse with 20:"
	$(COMPILE) examples/record.c target/dist/liblabyrinth.a -o target/record
	target/record

test:
	tests/gate.sh

LIBRARY = labyrinth_c rows_c stores_c blocks_c runs_c tags_c wraps_c pages_c registers_c
lib:
	tools/archives $(LIBRARY)
	mkdir -p target/dist
	{ echo create target/dist/liblabyrinth.a; printf 'addlib %s\n' $(foreach name,$(LIBRARY),crates/$(name)/out/lib$(name).a); echo save; echo end; } | ar -M
	cp include/labyrinth.h target/dist/labyrinth.h

example: lib
	$(COMPILE) examples/page.c target/dist/liblabyrinth.a -o target/page
	target/page
	$(COMPILE) examples/convert.c target/dist/liblabyrinth.a -o target/convert
	target/convert
	$(COMPILE) examples/record.c target/dist/liblabyrinth.a -o target/record
	target/record
	$(COMPILE) examples/keys.c target/dist/liblabyrinth.a -o target/keys
	target/keys

compare: lib
	tests/compare_c.py $${ARCHIVIST:+--archivist "$$ARCHIVIST"} $${SEED:+--seed "$$SEED"}

bench: lib
	tools/archives bench_blocks
	with=; if printf '#include <openssl/evp.h>\nint main(void) { return EVP_aria_128_ctr() == 0; }\n' | gcc -x c -o target/has_openssl - -lcrypto 2>/dev/null; \
	then with='-DOPENSSL -lcrypto'; fi; \
	gcc -std=c11 -O3 -Wall -Wextra -o target/bench bench/bench.c bench/labyrinth.c bench/others.c crates/bench_blocks/out/libbench_blocks.a target/dist/liblabyrinth.a $$with
	target/bench

wrong:
	tests/wrong.py $$ONLY

# Needs Debian's groff and ghostscript, which brings fonts-urw-base35. Times of groff's is that package's Nimbus Roman, but groff knows no Cyrillic
# letters of it; so it is made known once more, as the font CYR. groff works the paper twice, for the page numbers of the contents.
URW = /usr/share/fonts/type1/urw-base35/NimbusRoman-Regular
GROFF = groff -Kutf8 -t -ms -Tpdf -P-pa4 -P-e -F target/font
paper:
	mkdir -p target/font/devpdf
	grep -v ' uni' $(URW).afm >target/font/letters.afm
	cd target/font/devpdf && afmtodit ../letters.afm /dev/null CYR && printf '\tNimbusRoman-Regular\t$(URW).t1\n' >download
	tools/paper_to_ms docs/OPENING-A-PAGE.md >target/OPENING-A-PAGE.ms
	$(GROFF) -z target/OPENING-A-PAGE.ms 2>&1 | grep '^\.nr ' >target/pages.ms
	$(GROFF) target/pages.ms target/OPENING-A-PAGE.ms >target/OPENING-A-PAGE.pdf
