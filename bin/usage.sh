# What --help prints. docs/NOTATION.md has a heading for each reason and each refusal, in the same words.
# shellcheck shell=bash

usage() {
    printf '%s\n' "usage: bin/$name NEW $second
       bin/$name --help
       bin/$name --version

$question
Prints one line:

    yes COUNT                                         status 0
    no REASON DETAIL NEWNODE OLDNODE TURN STEPS...    status 1
    refused NUMBER TEXT PLACE                         status 2

Status 2 without a line: wrong arguments, a file that cannot be read, a byte 0 in NEW, a build that failed, or any other failure.
Standard error says which. A file may be /dev/stdin.

REASON of a no:
    20  the kinds differ
    21  the item counts differ
    22  an item differs
    23  a label that may be chosen is missing

NUMBER of a refusal. The text (1 is NEW, 2 is $second) is no valid description, and nothing was compared:
    1   text over 4,096 bytes
    2   something that cannot stand here, or the text ends too early
    3   word over 16 bytes
    4   a 17th open bracket
    5   a definition, node, label or item too many
    6   label twice in a choice
    7   name defined twice
    8   name used, never defined
    9   definition whose names lead round and never to a node

docs/NOTATION.md explains each with an example, the other fields of the line, and what a yes does not say."
}
