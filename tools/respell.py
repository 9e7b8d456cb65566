#!/usr/bin/env python3
"""Spells this repository's own definitions and lemmas as today's Rattle does, and renames two crates.

usage: python3 tools/respell.py        at the top of the repository, once, after the kit's port.py

A dash joins two names only where a lemma is about one function of another (alter-alter); all other words are joined by an
underscore. The crates bytes and hex have the names of libraries of the kit: they become byte_rows and hex_text. Names of the
code, strings, inputs and outputs stay. In the documents only what stands between backticks is turned.
"""

import os
import re
import subprocess
import sys

CRATES = {"bytes": "byte_rows", "hex": "hex_text"}

# Old spelling and new, of names that specs/ and proofs/ declare.
NAMES = dict(
    line.split()
    for line in """
ack-among ack_among
ack-at ack_at
ack-code ack_code
ack-name ack_name
ack-note ack_note
ack-of ack_of
ack-text ack_text
alive-tested alive_tested
all-parts all_parts
all-units all_units
alter-at alter_at
alter-first alter_first
alter-front alter_front
alter-past alter_past
alter-second alter_second
and-again and_again
answer-acts answer_acts
answer-bytes answer_bytes
answer-to answer_to
answer-word answer_word
answered-by answered_by
as-long as_long
ask-at ask_at
ask-first ask_first
ask-front ask_front
ask-kept ask_kept
ask-other ask_other
ask-past ask_past
ask-second ask_second
asked-by asked_by
asked-if asked_if
at-map at_map
at-most at_most
bare-coded bare_coded
big-endian big_endian
bitwise-table bitwise_table
blank-bytes blank_bytes
blank-units blank_units
blanked-again blanked_again
blanked-enough blanked_enough
body-bytes body_bytes
buffer-after buffer_after
built-facts built_facts
built-rule built_rule
by-place by_place
byte-back byte_back
byte-before byte_before
byte-in byte_in
byte-more byte_more
byte-value byte_value
bytes-all bytes_all
bytes-append bytes_append
bytes-asked bytes_asked
bytes-at bytes_at
bytes-back bytes_back
bytes-cons bytes_cons
bytes-drop bytes_drop
bytes-line bytes_line
bytes-none bytes_none
bytes-spelled bytes_spelled
bytes-take bytes_take
channel-at channel_at
channel-in channel_in
channel-there channel_there
clearing-idempotent clearing_idempotent
clearing-on-bytes clearing_on_bytes
clearing-onblank clearing_onblank
code-of code_of
command-asked command_asked
command-frame command_frame
command-in command_in
command-line command_line
command-result command_result
connected-to connected_to
connection-there connection_there
count-few count_few
count-in count_in
count-len count_len
count-some count_some
crc-append crc_append
crc-from crc_from
crc-holds crc_holds
crc-met crc_met
crc-of crc_of
crc-right crc_right
crc-step crc_step
crc-wrong crc_wrong
data-coded data_coded
decimal-back decimal_back
digit-ascii digit_ascii
digit-back digit_back
digit-other digit_other
digit-value digit_value
doing-if doing_if
doing-lawful doing_lawful
eeprom-length eeprom_length
eeprom-most eeprom_most
eeprom-size eeprom_size
entered-facts entered_facts
entered-lawful entered_lawful
erased-facts erased_facts
erases-all erases_all
erases-pages erases_pages
exited-lawful exited_lawful
extra-in extra_in
facts-at facts_at
facts-if facts_if
facts-of facts_of
facts-result facts_result
fed-below fed_below
fed-same fed_same
fetched-front fetched_front
fetched-lawful fetched_lawful
fields-in fields_in
fields-met fields_met
fields-of fields_of
fields-of-frame fields_of_frame
first-done first_done
first-five first_five
first-told first_told
flash-length flash_length
flash-size flash_size
frame-bytes frame_bytes
frame-in frame_in
frame-or-refusal frame_or_refusal
frame-read frame_read
frame-unpacked frame_unpacked
frame-written frame_written
from-below from_below
front-all front_all
front-altered front_altered
front-copy front_copy
front-landed front_landed
front-long front_long
front-more front_more
front-room front_room
front-units front_units
getD-tabulated get_or-tabulated
has-c2 has_c2
has-eeprom has_eeprom
has-page has_page
has-range has_range
head-back head_back
head-from head_from
head-spelled head_spelled
header-bytes header_bytes
hex-address hex_address
hex-append hex_append
hex-byte hex_byte
hex-bytes hex_bytes
hex-digit hex_digit
hex-line hex_line
hex-more hex_more
identity-length identity_length
in-mode in_mode
initialised-lawful initialised_lawful
interface-version interface_version
is-awake is_awake
is-sic2 is_sic2
judged-both judged_both
keeps-none keeps_none
land-again land_again
land-all land_all
land-blank land_blank
land-bytes land_bytes
land-enough land_enough
land-front land_front
land-keeps land_keeps
land-more land_more
land-none land_none
landed-bytes landed_bytes
landed-enough landed_enough
landed-more landed_more
landed-none landed_none
landed-once landed_once
last-two last_two
len-count len_count
len-fits len_fits
letter-back letter_back
line-laws line_laws
longest-fits longest_fits
low-kept low_kept
low-up low_up
made-by made_by
made-coded made_coded
mapped-coded mapped_coded
max-channels max_channels
memory-bytes memory_bytes
memory-facts memory_facts
memory-power memory_power
memory-roused memory_roused
memory-set memory_set
memory-whole memory_whole
mode-among mode_among
mode-from-number mode_from_number
mode-in mode_in
mode-lawful mode_lawful
mode-number mode_number
mode-of mode_of
mode-set mode_set
more-read more_read
moved-to moved_to
name-of name_of
new-channel new_channel
none-before none_before
none-in-byte none_in_byte
none-in-bytes none_in_bytes
none-of none_of
not-empty not_empty
number-at number_at
ok-parts ok_parts
one-more one_more
one-place one_place
only-command only_command
only-reply only_reply
or-invalid-param or_invalid_param
other-letter other_letter
outcome-line outcome_line
own-halves own_halves
packed-line packed_line
packing-of packing_of
page-few page_few
page-size page_size
pages-fit pages_fit
paired-long paired_long
paired-sound paired_sound
param-count param_count
param-len param_len
program-answered program_answered
protocol-version protocol_version
put-to-sleep put_to_sleep
range-there range_there
read-as read_as
read-front read_front
read-into read_into
read-more read_more
refusal-line refusal_line
refusal-number refusal_number
replacing-idempotent replacing_idempotent
replacing-on-bytes replacing_on_bytes
reply-fields reply_fields
reply-fields-of reply_fields_of
reply-frame reply_frame
reply-line reply_line
reply-result reply_result
report-or-refusal report_or_refusal
request-as request_as
request-laws request_laws
reset-lawful reset_lawful
roused-torn roused_torn
rule-idempotent rule_idempotent
rule-of rule_of
rule-on-bytes rule_on_bytes
rule-power rule_power
rule-roused rule_roused
rule-set rule_set
rule-table rule_table
rule-whole rule_whole
same-byte same_byte
same-low same_low
same-mode same_mode
same-pair same_pair
same-register same_register
same-start same_start
second-done second_done
second-told second_told
selected-lawful selected_lawful
shape-met shape_met
shape-parts shape_parts
shaped-fields shaped_fields
shift-below shift_below
shift-linear shift_linear
shift-low shift_low
shifts-below shifts_below
shifts-linear shifts_linear
size-in size_in
size-of size_of
sizes-fit sizes_fit
some-and some_and
some-parts some_parts
sound-append sound_append
sound-take sound_take
space-of space_of
stands-for stands_for
start-fits start_fits
start-of start_of
state-word state_word
step-below step_below
stored-lawful stored_lawful
table-shifts table_shifts
torn-tries torn_tries
tries-bytes tries_bytes
trimmed-last trimmed_last
two-digits two_digits
unpacked-line unpacked_line
unpacking-of unpacking_of
upper-zero upper_zero
wiped-lawful wiped_lawful
with-crc with_crc
with-data with_data
with-memory with_memory
with-power with_power
write-result write_result
written-at written_at
written-byte written_byte
written-facts written_facts
written-read written_read
written-unpacked written_unpacked
xor-cancel xor_cancel
xor-pairs xor_pairs
""".strip().splitlines()
)

# What ends a name in a text of antt or in a clause.
EDGE = r'[^\s(){};,.@"«»`]'
WORD = re.compile(rf"(?<!{EDGE}){EDGE}+(?!{EDGE})")
PATH = re.compile(r"(?<![\w.])Rattle\.(%s)(?=\.)" % "|".join(CRATES))
CODE_PATH = re.compile(r"(?<![\w:.])(%s)(?=::)" % "|".join(CRATES))
SPAN = re.compile(r"`[^`\n]+`")


def respelled(text):
    text = WORD.sub(lambda m: NAMES.get(m[0], m[0]), text)
    return PATH.sub(lambda m: "Rattle." + CRATES[m[1]], text)


def turned(path, text):
    if path.endswith(".md"):
        return SPAN.sub(lambda m: respelled(m[0]), text)
    if path.endswith(".antt"):
        return respelled(text)
    return CODE_PATH.sub(lambda m: CRATES[m[1]], respelled(text))


def main():
    for old, new in CRATES.items():
        if os.path.isdir(f"crates/{old}"):
            os.rename(f"crates/{old}", f"crates/{new}")
    with open("crates.txt", encoding="utf-8") as f:
        lines = f.read().splitlines()
    with open("crates.txt", "w", encoding="utf-8") as f:
        for line in lines:
            words = line if line.startswith("#") else re.sub(r"\w+", lambda m: CRATES.get(m[0], m[0]), line)
            f.write(words + "\n")
    listed = subprocess.run(["git", "ls-files", "-co", "--exclude-standard"], check=True, capture_output=True, text=True).stdout
    for path in listed.splitlines():
        if not path.endswith((".antt", ".rt", ".edit", ".md")) or not os.path.isfile(path):
            continue
        with open(path, encoding="utf-8") as f:
            text = f.read()
        new = turned(path, text)
        if new != text:
            with open(path, "w", encoding="utf-8") as f:
                f.write(new)
    return 0


if __name__ == "__main__":
    sys.exit(main())
