#!/usr/bin/env python3
"""Respells the repository's own definitions and lemmas: words in snake case, types in camel case.

    python3 tools/respell.py [FOLDER]

FOLDER, the current one if not given, holds the repository. The names stand in the table below, an old and a new one a
line. A name is turned where it stands as a whole word in a definition, a proof or a clause; text in quotes stays, and
of a comment only what is written in camel case is turned.
"""

import pathlib
import re
import sys

WORD = re.compile(r"[A-Za-z_\u25cc\u2115][\w\u25cc\u2115'\u2032\u00b7-]*")
# a piece of text in quotes, a comment up to the end of its line, or a word
PIECE = re.compile(r'"(?:[^"\\]|\\.)*"|(?:--|//).*|' + WORD.pattern)


def respell(text, names):
    def turned(match):
        piece = match.group(0)
        if piece.startswith('"'):
            return piece
        if piece.startswith(("--", "//")):
            return WORD.sub(lambda m: names.get(m.group(0), m.group(0)) if "-" not in m.group(0) else m.group(0), piece)
        return names.get(piece, piece)

    return PIECE.sub(turned, text)


def main():
    root = pathlib.Path(sys.argv[1] if len(sys.argv) > 1 else ".")
    names = dict(line.split() for line in NAMES.strip().splitlines())
    files = [p for part in ("specs", "proofs") for p in root.glob(f"crates/*/{part}/**/*.antt")]
    files += root.glob("crates/*/src/**/*.rt")
    for path in files:
        text = path.read_text()
        new = respell(text, names)
        if new != text:
            path.write_text(new)


NAMES = """
Accepted-is-text AcceptedIsText
Goes_on GoesOn
Kept-free kept_free
Rows-fit RowsFit
Rows-of RowsOf
Text-is-accepted TextIsAccepted
above-last above_last
above-none above_none
accepted-calls accepted_calls
accepted-is-text accepted_is_text
actBy act_by
actBy-is act_by_is
actOf act_of
actOf-is act_of_is
actText act_text
acts-is acts_is
acts-plain acts_plain
acts-text acts_text_lem
actsIn acts_in
actsIn-is acts_in_is
actsIn-text acts_in_text
actsText acts_text
after-rebuild after_rebuild
all-calls all_calls
all-items all_items
all-reports all_reports
all-suffice all_suffice
answer-tells answer_tells
answerTo answer_to
ask-is ask_is
ask-yes ask_yes
askCredit ask_credit
askLength ask_length
askVersion ask_version
asked-decimal asked_decimal
asked-tells asked_tells
before-is before_is
behind-first behind_first
behind-it behind_it
behind-next behind_next
blank-is blank_is
callRow call_row
callText call_text
carried-grows carried_grows
cells-bounded cells_bounded
cells-filled filled_cells
cells-front cells_front
cells-lent cells_lent
cells-size cells_size
cellsFilled cells_filled
chain-take chain_take
changeRefusal change_refusal
changeRow change_row
changeUnderRefusal change_under_refusal
changed-bounded changed_bounded
closeRefusal close_refusal
closed-more closed_more
cond-some cond_some
cond-tells cond_tells
cond-zero cond_zero
contentOf content_of
count-other count_other
count-separator count_separator
count-versions count_versions
credit-near credit_near
decimal-more decimal_more
decimal-one decimal_one
decimal-plain decimal_plain
decimal-three decimal_three
decimal-two decimal_two
due-alike due_alike
due-is due_is
due-last due_last
due-more due_more
due-unlike due_unlike
early-no early_no
eject-lays eject_lays
eject-room eject_room
eject-takes eject_takes
end-cell end_cell
end-split end_split
ended-table ended_table
far-items far_items
far-length far_length
far-starts far_starts
feeds-push feeds_push
few-cells few_cells
few-goals few_goals
few-items few_items
few-long few_long
few-rules few_rules
few-short few_short
few-states few_states
fields-all fields_all
fields-behind fields_behind
fieldsIn fields_in
fieldsLeft fields_left
first-act first_act
first-nth first_nth
first-row first_row_lem
firstBelow first_below
firstRow first_row
fits-at fits_at
free-nothing free_nothing
from-ok from_ok
front-joined front_joined
front-starts front_starts
goal-fits goal_fits
goal-is goal_is
goal-line goal_line
goalOf goal_of
goalRow goal_row
goals-are goals_are
goals-end goals_end
goals-read goals_read
goals-refused goals_refused
goalsMeaning goals_meaning
goalsOn goals_on
going-chain going_chain
grown-push grown_push
head-fits head_fits
head-is head_is
head-line head_line_lem
head-text head_text
headIn head_in
headLine head_line
headMeaning head_meaning
headRow head_row
in-front in_front
in-rear in_rear
in-slot-tells in_slot_tells
in-slot-yes in_slot_yes
inject-lays inject_lays
inject-room inject_room
inject-takes inject_takes
isDigit is_digit
isMark is_mark
item-more item_more
itemAnswer item_answer
itemField item_field
itemFields item_fields
items-are items_are
items-filled filled_items
items-front items_front
items-lent items_lent
items-same items_same
items-size items_size
itemsFilled items_filled
join-longer join_longer
join-parts join_parts
join-table join_table
joined-append joined_append
joined-map joined_map
keptItems kept_items
laid-at laid_at
last-nth last_nth
last-reverse last_reverse
lay-room lay_room
left-grows left_grows
leftFor left_for
leftIn left_in
length-acts length_acts
length-chain length_chain
length-itemsOf length_items_of
length-lines length_lines
length-rebuilt length_rebuilt
length-side length_side
length-yes length_yes
lineRow line_row
linked-free linked_free
linkedCells linked_cells
list-fits list_fits
list-of list_of_lem
list-reported list_reported
listAt list_of_version
listReport list_report
longer-blank longer_blank
longer-length longer_length
madeOn made_on
madeRows made_rows
marks-is marks_is
marks-plain marks_plain
marks-themselves marks_themselves
marksIn marks_in
meaningOf meaning_of
more-acts more_acts
near-items near_items
near-length near_length
near-starts near_starts
near-take near_take
new-cell new_cell
new-closed new_closed
new-fits new_fits
new-list new_list
new-starts new_starts
next-call next_call
no-goal no_goal
no-more-acts no_more_acts
no-rebuild no_rebuild
no-rule no_rule
no-slot no_slot
noSide no_side
none-linked none_linked
not-ok not_ok
number-decimal number_decimal
numeral-decimal numeral_decimal
numeral-is numeral_is
numeralIn numeral_in
ofLists of_lists
okOr-is ok_or_is
old-lists old_lists
old-sides old_sides
openingRow opening_row
parts-some parts_some
picked-append picked_append
picked-reverse picked_reverse
places-inside places_inside
pledged-set pledged_set
pop-lays pop_lays
pop-room pop_room
pop-takes pop_takes
promisedAfter promised_after
push-lays push_lays
push-room push_room
push-takes push_takes
questionRefusal question_refusal
questionRow question_row
read-side read_side
read-size read_size
readRows read_rows
rear-starts rear_starts
rebuild-more rebuild_more
rebuild-turn rebuild_turn
rebuilt-at rebuilt_at
rebuilt-closed rebuilt_closed
rebuilt-push rebuilt_push
refill-at-most refill_at_most
refill-least refill_least
refill-places refill_places
refillCells refill_cells
refilled-empty refilled_empty
refilled-length refilled_length
refilled-order refilled_order
refilled-some refilled_some
refilled-whole refilled_whole
refusalOf refusal_of
refusalRow refusal_row
refused-line refused_line
refused-no refused_no
refused-size refused_size
refused-tells refused_tells
refusedAt refused_at
refusedWith refused_with
reply-tells reply_tells
replyOf reply_of
replyRow reply_row
report-more report_more
reports-more reports_more
reports-take reports_take
reservationIn reservation_in
reservationOf reservation_of
reserveRefusal reserve_refusal
rest-first rest_first
reverse-one reverse_one
rising-above rising_above
rising-push rising_push
row-bounded row_bounded
rows-bounded rows_bounded
rows-from rows_from
rows-line rows_line
rows-read rows_read
rows-sound rows_sound
rowsLeft rows_left
rule-is rule_is
rule-line rule_line
ruleContent rule_content
ruleContents rule_contents
ruleOf rule_of
ruleRow rule_row
rules-are rules_are
rules-more rules_more
rules-read rules_read
rules-refused rules_refused
rulesOn rules_on
runs-length runs_length
runs-longest runs_longest
runs-promised runs_promised
runs-told runs_told
runs-versions runs_versions
same-sides same_sides
share-lower share_lower
share-near share_near
share-room share_room
short-some short_some
shortTable short_table
shown-as shown_as
side-bounded side_bounded
side-is side_is
side-item side_item
sidesAt sides_at
sidesOf sides_of
size-is-right size_is_right
slotsAfter slots_after
some-acts some_acts
some-before some_before
some-blank some_blank
some-ended some_ended
some-ok some_ok
sound-from sound_from
sound-head sound_head
sound-start sound_start
soundGoals sound_goals
soundHead sound_head
soundRule sound_rule
soundRules sound_rules
soundStart sound_start
soundStartAt sound_start_at
start-line start_line_lem
startLine start_line
startMeaning start_meaning
startRow start_row
state-decimal state_decimal
state-is state_is
stateIn state_in
staying-chain staying_chain
t-cells t_cells
t-items t_items
t-kept t_kept
t-linked t_linked
t-lists t_lists
t-shares t_shares
t-versions t_versions
table-join table_join
table-last table_last
table-line table_line
table-lines table_lines
table-some table_some
table-text table_text
tableNumber table_number
take-some take_some
tellings-push tellings_push
text-from-table text_from_table
text-is-accepted text_is_accepted
text-length text_length
toldOf told_of
took-cells took_cells
took-item took_item
turned-list turned_list
unknown-none unknown_none
unless-tells unless_tells
unless-yes unless_yes
versions-bounded versions_bounded
versions-lent versions_lent
withPromised with_promised
writeNumber write_number
"""

if __name__ == "__main__":
    main()
