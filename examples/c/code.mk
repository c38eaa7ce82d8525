# How raw code is made of C, for the makefiles of examples: of PROGRAMS, which are compiled again when one of HEADERS changes.
# It needs clang and pyelftools.

PACKAGE := ../../python
INCLUDE := -I$(PACKAGE)/bpfagent/include
CLANG := clang
BPF := -target bpfel -mcpu=v3 -O2 -g -gdwarf-4 -ffreestanding -Wall -Wextra -Werror $(INCLUDE)
# A Python that has pyelftools: Debian's own, if the first on PATH doesn't.
PYTHON := PYTHONPATH=$(PACKAGE) $(shell for python in python3 /usr/bin/python3; do $$python -c 'import elftools' 2>/dev/null && echo $$python && break; done || echo python3)
OUT := out

.PHONY: code same
.SECONDARY:

# The raw code, as it is stored.
code: $(PROGRAMS:%=%.code)

%.code: $(OUT)/%.code
	cp $< $@

# What raw code can't carry is refused: data, maps, functions of other files.
$(OUT)/%.code: $(OUT)/%.o
	$(PYTHON) -m bpfagent.ship --output $@ $<

$(OUT)/%.o: %.c $(HEADERS) $(wildcard $(PACKAGE)/bpfagent/include/*.h)
	@mkdir -p $(OUT)
	$(CLANG) $(BPF) -c $< -o $@

# Whether the code that is stored is what the sources give.
same: $(PROGRAMS:%=$(OUT)/%.code)
	@for name in $(PROGRAMS); do cmp $(OUT)/$$name.code $$name.code || exit; done
