# Joins hundreds of journals or datagram files as a tree: only what changed is joined again.
#
#   make -f examples/tree.mk -j4 INPUTS=stations OUT=all
#
# INPUTS     a folder: each file in it and below it is an input, but for those that end in .partial
# PATTERN    takes only the names that match, as '*.journal'
# LIST       instead of INPUTS: a file with the name of an input on each line
# OUT        the journal of all inputs
# TREE       a folder for the intermediate journals, and for the list of each join
# FANIN      the greatest number of inputs of a join, from 2 to 64
# SOURCE     the sender of the inputs that are datagram files (--source). Without it the sender is
#            in the names that the tools give, as 10.0.0.1.fldg; a name with another sender stops
# FLUTEJOIN  the program
#
# An input is joined again, with the path from it to OUT, if its file has other times, another
# length or another place on the disk; if it is added; and if it is removed, and then OUT loses
# what only it had. An input stays in its group, and a new one fills a free place. To
# make new groups, remove TREE.
#
# Names of inputs are UTF-8 without line feeds. OUT and TREE may have letters, digits and
# . _ + , @ / - only. Anything else stops before the first join.
#
# Each join replaces its output whole or not at all. If one fails, the input at fault is named,
# OUT stays what it was, and the next run continues there; with -k the other joins are done
# first. One make at a time may work in a TREE.
#
# Needed: GNU make and the GNU tools of Linux.

OUT ?= all
TREE ?= tree
FANIN ?= 64
PATTERN ?= *
FLUTEJOIN ?= flutejoin
ifeq ($(INPUTS)$(LIST),)
$(error tree.mk: INPUTS or LIST is needed)
endif

STEPS := $(dir $(lastword $(MAKEFILE_LIST)))tree_steps.sh
quoted = '$(subst ','\'',$(1))'

$(info $(shell $(call quoted,$(STEPS)) plan \
	$(call quoted,$(INPUTS)) $(call quoted,$(LIST)) $(call quoted,$(PATTERN)) \
	$(call quoted,$(OUT)) $(call quoted,$(TREE)) $(call quoted,$(FANIN)) \
	$(call quoted,$(SOURCE))))
ifneq ($(.SHELLSTATUS),0)
$(error tree.mk: nothing was joined)
endif

.DEFAULT_GOAL := $(OUT)
.SUFFIXES:
# make removes no journal when it is interrupted: each is whole.
.PRECIOUS: $(OUT) $(TREE)/%.journal

include $(TREE)/plan.mk

$(OUT): $(TREE)/out.list
	@$(call quoted,$(STEPS)) join $(call quoted,$(FLUTEJOIN)) $@ $<

$(TREE)/%.journal: $(TREE)/%.list
	@$(call quoted,$(STEPS)) join $(call quoted,$(FLUTEJOIN)) $@ $<

# The step above writes the plan.
$(TREE)/plan.mk: ;
$(TREE)/%.list: ;
