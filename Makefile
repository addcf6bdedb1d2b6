PREFIX ?= $(HOME)/.local

.PHONY: demo examples test edits growths install companions try clean rt tools_of_c

# Converts 01 01 2a, a BOOLEAN under BER, to DER, then checks, shows and converts the values of examples/, by a
# program that is compiled once, without a proof. examples/demo/ has the words of each run. Of the text of a
# certificate the first 240 characters are printed.
demo: rt
	@for file in crates/asn1x/data/in.hex examples/calls.asn examples/calls.hex; do \
	    echo "$$ cat $${file##*/}" && cat $$file && echo; \
	done
	@printed=$$( $(call quietly,$(in_program) rt try --cases ../../examples/demo --data in.hex=data/in.hex \
	    $(foreach file,$(shown),--data $(file)=../../examples/$(file))) ) && \
	echo "$$printed" | while read -r line; do \
	    case $$line in \
	    '== '*) \
	        words=$$(paste -sd ' ' examples/demo/$${line#== }.args); \
	        case $$words in *' Certificate '*) cut='cut -c 1-240' ;; *) cut= ;; esac; \
	        echo "$$ asn1x $$words$${cut:+ | $$cut}" ;; \
	    *) echo "$$line" | $${cut:-cat} ;; \
	    esac; \
	done
	@echo '(compiled with run-time checks, and not yet proved: "make install" proves it)'

# Runs the built or installed program over the values of examples/, and the built library by C, Rust and Python, and
# compares what they print with what other tools make of them.
examples:
	@examples/run.sh

# Passes the gate: every proof, test and stored run, and the must-fail edits of crates/. Those of bench/edits/ are looked
# at: each can still be applied.
test: rt
	@bench/edits.py --look
	rt ci

# Tries the must-fail edits of bench/edits/, which the gate has no time for.
edits: rt
	bench/edits.py

# Has each growth of each call of the library refused in turn, and first those of the program where it is built. It
# proves nothing, and takes some minutes, mostly to compile.
growths: rt
	@if [ -x crates/asn1x/out/asn1x ]; then \
	    bench/refused_growths.sh; \
	else \
	    echo 'the program is left out, since it is not built: "make install" builds it'; \
	fi
	@bench/growths.sh

# Proves the program and each library that it stands on, and puts it on the path, with its manual page and completion.
# Beside it stands the library for callers of C, whose tools are looked for before the proof, which takes long.
install: rt tools_of_c
	@install/proved.sh asn1x
	@$(call put,crates/asn1x/out/asn1x)
	@echo 'installed $(program), which is proved, and its manual page (man asn1x)'
	@install/proved.sh asn1x_c
	@install/library.sh crates/asn1x_c/out/library
	@$(put_library)
	@echo 'installed $(library)/libasn1x.a and libasn1x.so, which are proved, and asn1x.h (pkg-config asn1x)'

# Proves the programs beside it, asn1x-view and asn1x-trim, and puts them on the path with their manual pages.
companions: rt
	@install/proved.sh asn1x_view asn1x_trim
	@for name in view trim; do \
	    install -D -m 755 crates/asn1x_$$name/out/asn1x_$$name "$(program)-$$name" && \
	    install -D -m 644 docs/asn1x-$$name.1 "$(DESTDIR)$(PREFIX)/share/man/man1/asn1x-$$name.1" && \
	    echo "installed $(program)-$$name, which is proved, and its manual page (man asn1x-$$name)" || exit 1; \
	done

# Puts the program on the path as it is without a proof, compiled with run-time checks.
try: rt
	@echo 'compiling asn1x with run-time checks, and without a proof: one to two minutes'
	@install/unproved.sh crates/asn1x/out/unproved
	@$(call put,crates/asn1x/out/unproved)
	@echo 'installed $(program), which is NOT PROVED and many times slower, and its manual page (man asn1x)'
	@echo '"make install" proves it, and puts the proved one in its place'

clean:
	rm -rf crates/*/out

rt:
	@command -v rt >/dev/null || { echo "rt is missing: put the kit's bin folder on the path" >&2; exit 1; }

tools_of_c:
	@for tool in cc ar; do \
	    command -v $$tool >/dev/null || { echo "$$tool is missing: the library for callers of C needs it" >&2; exit 1; }; \
	done

in_program = cd crates/asn1x &&
shown = calls.asn calls.hex certificates.asn certificates.hex revoked.hex usage.hex

# A command whose standard error is shown only where it fails.
define quietly
( said=$$(mktemp); trap 'rm -f "$$said"' EXIT; ( $(1) ) 2>"$$said" || { cat "$$said" >&2; exit 1; } )
endef

# Puts a built program, its manual page and its completion where they belong.
program = $(DESTDIR)$(PREFIX)/bin/asn1x
define put
install -D -m 755 $(1) "$(program)" && \
install -D -m 644 docs/asn1x.1 "$(DESTDIR)$(PREFIX)/share/man/man1/asn1x.1" && \
install -D -m 644 docs/asn1x.bash "$(DESTDIR)$(PREFIX)/share/bash-completion/completions/asn1x"
endef

# Puts the library for callers of C where it belongs, with its header and what pkg-config reads.
library = $(DESTDIR)$(PREFIX)/lib
define put_library
install -D -m 644 crates/asn1x_c/out/library/libasn1x.a "$(library)/libasn1x.a" && \
install -D -m 755 crates/asn1x_c/out/library/libasn1x.so "$(library)/libasn1x.so.0" && \
ln -sf libasn1x.so.0 "$(library)/libasn1x.so" && \
install -D -m 644 include/asn1x.h "$(DESTDIR)$(PREFIX)/include/asn1x.h" && \
sed 's|@PREFIX@|$(PREFIX)|' install/asn1x.pc >crates/asn1x_c/out/library/asn1x.pc && \
install -D -m 644 crates/asn1x_c/out/library/asn1x.pc "$(library)/pkgconfig/asn1x.pc"
endef
