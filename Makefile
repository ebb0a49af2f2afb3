# make install PREFIX=/usr/local DESTDIR=..   puts there the program, its tools, man page, completion, user's documents
# make uninstall PREFIX=.. DESTDIR=..         takes away just that
#
# The program is the one that ./scuba builds and proves. SCUBA=PROGRAM names another.

PREFIX ?= /usr/local
DESTDIR ?=
top := $(patsubst %/,%,$(dir $(abspath $(lastword $(MAKEFILE_LIST)))))
program := $(or $(SCUBA),$(top)/crates/scuba_cli/out/scuba_cli)

# The folders of what is installed.
at := $(DESTDIR)$(PREFIX)
bin := $(at)/bin
own := $(at)/share/scuba
man := $(at)/share/man/man1
complete := $(at)/share/bash-completion/completions
doc := $(at)/share/doc/scuba

# Each tool is the command scuba-NAME.
tools := load ask folder dump whole_records
there := $(foreach tool,$(tools),$(if $(wildcard $(top)/tools/$(tool)),$(tool)))
pages := README.md CHANGELOG.md VERSION
# (these pages are for those who change the program)
of_builders := ARCHITECTURE CHANGING DECISIONS MODEL PROVING
docs := $(filter-out $(of_builders:%=$(top)/docs/%.md),$(wildcard $(top)/docs/*.md))

.PHONY: program install uninstall

# An empty script has ./scuba look at the whole program, which it builds where it is missing or older than its sources.
program:
ifeq ($(SCUBA),)
	"$(top)/scuba" mem play </dev/null
endif
	@[ -x "$(program)" ] && [ -f "$(program)" ] || { echo "make: there is no program $(program)" >&2; exit 1; }

install: program
	install -d "$(bin)" "$(own)/tools/scuba_tools" "$(man)" "$(complete)" "$(doc)/docs" "$(doc)/examples"
	install -m 755 "$(program)" "$(bin)/scuba"
	install -m 644 "$(top)/tools/scuba_tools/"*.py "$(own)/tools/scuba_tools/"
	install -m 644 "$(top)/package/scuba.1" "$(man)/scuba.1"
	install -m 644 "$(top)/package/scuba.bash" "$(complete)/scuba"
	for tool in $(there); do \
	  install -m 755 "$(top)/tools/$$tool" "$(own)/tools/$$tool" && \
	  ln -sfn "../share/scuba/tools/$$tool" "$(bin)/scuba-$$tool" && \
	  ln -sfn scuba "$(complete)/scuba-$$tool" && \
	  echo '.so man1/scuba.1' >"$(man)/scuba-$$tool.1" && chmod 644 "$(man)/scuba-$$tool.1" || exit 1; \
	done
	install -m 644 $(pages:%=$(top)/%) "$(doc)/"
	install -m 644 $(docs) "$(doc)/docs/"
	install -m 644 "$(top)/examples/"*.* "$(doc)/examples/"

uninstall:
	rm -f "$(bin)/scuba" "$(man)/scuba.1" "$(complete)/scuba"
	for tool in $(tools); do rm -f "$(bin)/scuba-$$tool" "$(man)/scuba-$$tool.1" "$(complete)/scuba-$$tool"; done
	rm -rf "$(own)" "$(doc)"
