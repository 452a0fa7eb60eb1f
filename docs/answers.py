#!/usr/bin/env python3
"""Writes docs/ANSWERS.md: every answer of the command, with an example from the stored cases.

    python3 docs/answers.py            writes docs/ANSWERS.md
    python3 docs/answers.py --check    fails where the page is another

The kinds of answers stand in the tables below: of each its status, a pattern of its text, what it means, what to do, and the
case of cases/cases.txt that is its example, whose text is taken from cases/answers.txt. The script fails where a case has
another status than its kind, where the text of a case has no kind or several, and where a kind is said to have no example and a
case has its text. Run it at the top of the repository."""
import os
import re
import sys
import textwrap
from collections import namedtuple

PAGE = "docs/ANSWERS.md"
CASES = "cases/cases.txt"
STORED = "cases/answers.txt"

# `case` is None where the stored cases have none, and `why` says so.
Kind = namedtuple("Kind", "title status pattern means next case why", defaults=(None,))

S, F, I = "VERIFICATION SUCCESSFUL", "VERIFICATION FAILED", "VERIFICATION INCONCLUSIVE"

OVERFLOW = [
    Kind("Successful over K samples", 0, rf"{S}\nproperty OVERFLOW .* samples \d+\n",
         "No list of K inputs in range, from registers of zeros, makes an operation's exact value leave the words.",
         "where the controller remembers more than K samples ask `--gain`.",
         "low_pass_in_bytes.dsv --property OVERFLOW --x-size 6"),
    Kind("Successful over lists of any length, by ranges", 0, rf"{S}\nproperty OVERFLOW .* gain\n.*",
         "`--gain`: no list of inputs in range, however long, overflows, and the exact value of each operation is never outside its "
         "printed range. The output less that of the same equations in exact arithmetic is never outside the range of the line `error`; "
         "`error open` says that no bound was found, and cascades and state-space controllers have no such line. docs/GUIDE.md says "
         "what `depth` and `settled` are.",
         "where all ranges, the coefficients and the inputs fit in words with one bit less before the point, that bit can go; where "
         "the error is too great, one more bit after the point halves it.",
         "lag.dsv --property OVERFLOW --gain"),
    Kind("Successful over lists of any length, by an invariant", 0, rf"{S}\nproperty OVERFLOW .* unbounded\ndepth .*",
         "`--unbounded`: no list of inputs in range, however long, overflows. The registers never leave the printed set: each "
         "inequality has a coefficient for each register, and what the sum is at most.",
         "nothing.",
         "slow_pole.dsv --property OVERFLOW --unbounded"),
    Kind("Successful over lists of any length, by an ellipsoid", 0, rf"{S}\nproperty OVERFLOW .* unbounded\nellipsoid .*",
         "`--unbounded --ellipsoid`: no list of inputs in range, however long, overflows. The form of the last outputs is never greater "
         "than the level, and no output than the bound in size.",
         "nothing.",
         "small/resonance.dsv --property OVERFLOW --unbounded --ellipsoid small/resonance.ellipsoid"),
    Kind("Failed", 10, rf"{F}\nproperty OVERFLOW .*\ninputs .*",
         "A counterexample: these inputs overflow, in the last sample. There the exact value of this number is the first that is no word. With `--gain` "
         "the list has up to 4,096 inputs.",
         "`--simulate` with these inputs, or more than 64 of them through a pipe into `--inputs`, as docs/GUIDE.md shows, shows the "
         "value in its place. One more of `int_bits`, a smaller range of inputs, another "
         "realisation; or nothing, where a later operation undoes it and words wrap.",
         "integrator.dsv --property OVERFLOW --gain"),
    Kind("Inconclusive, `cause GAIN`", 20, rf"{I}\nproperty OVERFLOW .* gain\ncause GAIN .*",
         "In this sample the range of the exact value of this number, over all runs, isn't known to be one of words, and is the first "
         "such; none of the lists that were tried overflows.",
         "a smaller range of inputs, one more of `int_bits`, `--unbounded`, or `--x-size`.",
         "notch.dsv --property OVERFLOW --gain"),
    Kind("Inconclusive, `cause DEPTH`", 20, rf"{I}\nproperty OVERFLOW .* gain\ncause DEPTH .*",
         "The ranges of all runs are words in each sample below this depth, and those after any words in the registers in none: the "
         "registers matter for too long, as of a pole on the circle.",
         "another realisation, `--unbounded`, or `--x-size`.",
         "small/held.dsv --property OVERFLOW --gain"),
    Kind("Inconclusive, `cause NO_INVARIANT`", 20, rf"{I}\nproperty OVERFLOW .* unbounded\ncause NO_INVARIANT .*",
         "`--unbounded`: none of the candidate invariants is known to be one; for `spent` of them the conflict budget was exhausted.",
         "`--gain`. Where `spent` isn't 0, more `--conflicts`; a smaller range of inputs or one more of `int_bits`; another "
         "realisation; else `--x-size`.",
         "small/pole.dsv --property OVERFLOW --unbounded"),
    Kind("Inconclusive, `cause NO_OFFER`", 20, rf"{I}\nproperty OVERFLOW .* unbounded\ncause NO_OFFER\n",
         "`--offer-ellipsoid`: no ellipsoid was found that its check accepts.",
         "`--gain`; a smaller range of inputs or one more of `int_bits`.",
         "small/pole_outside.dsv --property OVERFLOW --offer-ellipsoid"),
    Kind("Inconclusive, `cause SPENT`", 20, rf"{I}\nproperty (?:OVERFLOW|LIMIT_CYCLE) .*\ncause SPENT .*",
         "OVERFLOW and LIMIT_CYCLE with `--x-size`: the conflict budget of the search is exhausted.",
         "`--conflicts`, up to 200000; fewer samples; `--formula` with another solver.",
         "small/average.dsv --property OVERFLOW --conflicts 1"),
]

CYCLES = [
    Kind("Successful", 0, rf"{S}\nproperty LIMIT_CYCLE .*",
         "Without input the registers never return to the same words within 1 to K samples while an output isn't 0, from any words in the registers that "
         "feed back. Registers that hold inputs are 0, and so are those of DDFI that add up inputs, though inputs may have left them otherwise.",
         "longer periods may be asked, up to 64.",
         "small/two_taps.dsv --property LIMIT_CYCLE --x-size 3"),
    Kind("Failed", 10, rf"{F}\nproperty LIMIT_CYCLE .*",
         "A counterexample: without input the registers return to these words after `period` samples, and no earlier. The start may be one that no "
         "inputs lead to.",
         "look at the size of `outputs`. More of `frac_bits` make a cycle smaller; another `--rounding` or realisation may take it away. "
         "Of an integrator it is as it should be.",
         "resonator.dsv --property LIMIT_CYCLE --rounding NEAREST --overflow-mode SATURATE --x-size 9"),
]

ROOTS = [
    Kind("Successful", 0, rf"{S}\nproperty (?:STABILITY|MINIMUM_PHASE) realization \w+\npolynomial [-\d ]+\n(?!table ).*",
         "The roots of the printed polynomial, the denominator or the numerator in words, are inside the unit circle: the form is "
         "positive and strictly falls along each trajectory, by `fall` in a step. Form and fall are evidence.",
         "nothing.",
         "lag.dsv --property STABILITY"),
    Kind("Failed", 10, rf"{F}\nproperty (?:STABILITY|MINIMUM_PHASE) realization \w+\npolynomial [-\d ]+\n(?!table ).*",
         "Unstable, or of no minimum phase: a root is outside the unit circle or on it. The form is negative at `start` and never rises from there, so that the "
         "trajectory from the start doesn't tend to 0.",
         "more of `frac_bits`, another `--rounding`, or a delta form. Of a PI or PID controller a pole at 1 is meant.",
         "lag_in_bytes.dsv --property STABILITY"),
    Kind("Successful, by the table", 0, rf"{S}\nproperty (?:STABILITY|MINIMUM_PHASE) realization \w+\npolynomial .*\ntable inside\n.*",
         "`--schur-cohn`, if no form is accepted: the roots of the printed polynomial are inside the unit circle. In Jury's table of it, "
         "in exact whole numbers, each row has a positive first number, and a form that strictly falls exists. The size of its greatest "
         "root is at least the first of the two numbers and below the second.",
         "nothing.",
         "small/slow_order_eight.dsv --property STABILITY --schur-cohn"),
    Kind("Failed, by the table", 10, rf"{F}\nproperty (?:STABILITY|MINIMUM_PHASE) realization \w+\npolynomial .*\ntable row .*",
         "`--schur-cohn`, if no form is accepted: a root is outside the unit circle or on it. Row K is the first of the table whose first "
         "number isn't positive; a form exists that keeps a trajectory away from 0. The size of the greatest root is as above.",
         "as after the other failure.",
         "butterworth.dsv --property MINIMUM_PHASE --schur-cohn"),
    Kind("Failed, `no zeros to test`", 10, rf"{F}\nproperty MINIMUM_PHASE .*\nno zeros to test\n",
         "All words of the numerator are 0.",
         "more of `frac_bits`, or a larger numerator.",
         "small/no_zeros.dsv --property MINIMUM_PHASE"),
    Kind("Inconclusive, `cause NO_FORM`, `jury not-inside`", 20, rf"{I}\n.*\n.*\ncause NO_FORM .*\njury not-inside .*",
         "No form was found, though one exists: by Jury's criterion a root isn't inside; the number is the row that fails.",
         "`--schur-cohn`, with which the verdict is FAILED.",
         "small/no_form.dsv --property STABILITY"),
    Kind("Inconclusive, `cause NO_FORM`, `jury inside`", 20, rf"{I}\n.*\n.*\ncause NO_FORM .*\njury inside\n",
         "No form was found, though one exists: by Jury's criterion the roots are inside.",
         "`--schur-cohn`, with which the verdict is SUCCESSFUL.",
         "small/no_form_inside.dsv --property STABILITY"),
    Kind("Inconclusive, `cause NO_FORM`, `jury wide`", 20, rf"{I}\n.*\n.*\ncause NO_FORM .*\njury wide .*",
         "No form was found, and the numbers of Jury's criterion are too large in this row.",
         "`--schur-cohn`, with which the verdict is the one or the other.",
         "small/slow_order_six.dsv --property STABILITY"),
    Kind("Inconclusive, `cause WIDE`", 20, rf"{I}\nproperty (?:STABILITY|MINIMUM_PHASE) realization \w+\ncause WIDE .*",
         "This number of the polynomial, or one on the way to it, is too large.",
         "fewer bits; in a delta form, a `delta` such as 1/4 in place of a smaller one.",
         "small/wide_polynomial.dsv --property STABILITY --realization DDFI"),
]

SERIES = [
    Kind("Successful", 0, rf"{S}\nproperty STABILITY realization \w+ sections \d\n(?!.*table inside).*",
         "All sections are stable: after each one's number, from 0 on, stand its polynomial, and form and fall as of a single controller.",
         "nothing.",
         "low_pass_section_1.dsv --sections low_pass_section_2.dsv,low_pass_section_3.dsv --property STABILITY"),
    Kind("Failed", 10, rf"{F}\nproperty STABILITY realization \w+ sections \d\n(?!.*table row).*",
         "This section is the first that isn't stable; what follows is as of a single controller.",
         "as of a single controller, for this section's file.",
         "small/half_pole.dsv --sections small/pole_at_one.dsv --property STABILITY"),
    Kind("Inconclusive, `cause NO_CLOSED_FORM`", 20, rf"{I}\nproperty STABILITY .*\ncause NO_CLOSED_FORM .*",
         "This section is the first that isn't known to be stable: its polynomial has order 2, and the number at this index is over "
         "2^23 in size.",
         "`--schur-cohn`, with which tables decide all sections.",
         "small/fine_gain.dsv --sections small/fine_pair.dsv --property STABILITY"),
    Kind("Inconclusive, `cause WIDE`", 20, rf"{I}\nproperty STABILITY .*\ncause WIDE section .*",
         "Of this section a number of the polynomial, or one on the way to it, is too large.",
         "as of a single controller, for this section's file.",
         "small/fine_gain.dsv --sections small/fine_pair.dsv --property STABILITY --realization DDFI"),
    Kind("Successful, by tables", 0, rf"{S}\nproperty STABILITY realization \w+ sections \d\n.*table inside.*",
         "`--schur-cohn`: all sections are stable; after each one's number stand its polynomial, its table and the size of its greatest root.",
         "nothing.",
         "low_pass_section_1.dsv --sections low_pass_section_2.dsv,low_pass_section_3.dsv --property STABILITY --schur-cohn"),
    Kind("Failed, by a table", 10, rf"{F}\nproperty STABILITY realization \w+ sections \d\n.*table row.*",
         "`--schur-cohn`: this section is the first that isn't stable, by its table.",
         "as of a single controller, for this section's file.",
         "small/half_pole.dsv --sections small/pole_at_one.dsv --property STABILITY --schur-cohn"),
]

LOOPS = [
    Kind("Successful", 0, rf"{S}\nproperty STABILITY realization \w+(?: sections \d)? plant\npolynomial .*",
         "`--plant`: the loop is stable. The roots of the printed polynomial A a + B b are inside the unit circle, where B / A is the "
         "controller in words, with `--sections` the product of the sections, and b / a the plant: in Jury's table of it, in exact whole numbers, each row has a positive first number. The "
         "size of its greatest root is at least the first of the two numbers and below the second; of a polynomial without a root there is no such line.",
         "the nearer to 1 the greatest root is, the slower the loop settles: a disturbance falls by about this factor in a sample.",
         "motor_pi.dsv --property STABILITY --plant motor_plant.dsv"),
    Kind("Failed", 10, rf"{F}\nproperty STABILITY realization \w+(?: sections \d)? plant\npolynomial .*",
         "The loop isn't stable: a root of its polynomial is outside the unit circle or on it. Row K is the first of the table whose first "
         "number isn't positive; row 0 is the polynomial itself. The size of the greatest root is as above.",
         "more of `frac_bits`, another `--rounding`, or other coefficients of the controller; look at the sign of the plant, since the "
         "feedback is negative.",
         "small/motor_pi_in_bytes.dsv --property STABILITY --plant motor_plant.dsv"),
]

STATES = [
    Kind("Successful", 0, rf"{S}\nproperty STABILITY state-space \d\nform .*",
         "The form is positive, and less after each step of the states without input, by `fall`: with A in words and q = 2^frac_bits it "
         "is q^2 P - A^T P A.",
         "nothing.",
         "--state-space small/two_states.states --property STABILITY --form small/two_states.cert"),
    Kind("Inconclusive, `cause NO_FORM`", 20, rf"{I}\nproperty STABILITY state-space \d\ncause NO_FORM\n",
         "`--lyapunov`: the search for a form found none. That says nothing of the controller, but of most that are stable one is found. "
         "With `--schur-cohn`: the table shows no form; that this never comes isn't proved, and no controller that was tried comes to it.",
         "`--schur-cohn`; fewer bits after the point; a form of one's own, with `--form`.",
         "--state-space small/unstable.states --property STABILITY --lyapunov"),
    Kind("Successful, by the table", 0, rf"{S}\nproperty STABILITY state-space \d\npolynomial .*\ntable inside\n.*",
         "`--schur-cohn`: the states fall to 0 without input: a form exists that strictly falls in each step. The printed polynomial is the "
         "characteristic one of A in words, each coefficient times a power of q = 2^frac_bits, so that a step is A divided by q; the size "
         "of its greatest root is as of a loop.",
         "nothing.",
         "--state-space observer.states --property STABILITY --schur-cohn"),
    Kind("Failed, by the table", 10, rf"{F}\nproperty STABILITY state-space \d\npolynomial .*\ntable row .*",
         "`--schur-cohn`: from some start the states are kept away from 0: a form exists that shows it.",
         "more bits after the point, or another `--rounding`. An integrator's pole at 1 is meant.",
         "--state-space small/unstable.states --property STABILITY --schur-cohn"),
]

TIMES = [
    Kind("Successful", 0, rf"{S}\nproperty TIMING .*",
         "The cycles that a sample takes, by the costs of the block `hardware`, are done within the time between two samples.",
         "compare the costs with the processor's.",
         "lag.dsv --property TIMING"),
    Kind("Failed", 10, rf"{F}\nproperty TIMING .*",
         "They aren't: the cycles divided by the clock are more than the sample time.",
         "a direct form has the fewest operations; else a longer sample time or a faster clock.",
         "small/roll_late.dsv --property TIMING"),
]

OTHERS = [
    Kind("A simulation", 0, r"SIMULATION\n.*",
         "`--simulate`, or `--inputs` of a list in a file: each line has the input, the output, and the exact value of each operation "
         "before it is fitted into a word.",
         "compare the outputs with the board's.",
         "small/pole.dsv --simulate 4,4"),
    Kind("The outputs of a run", 0, r"(?:-?\d+\n)+",
         "`--outputs`, with `--simulate` or `--inputs`: the outputs alone, one a line.",
         "compare them with the board's.",
         "small/halving.dsv --inputs small/inputs.txt --outputs"),
    Kind("The C of a controller", 0, r"/\* .*",
         "`--emit-c`: a struct of the registers, a function that sets them to 0, and one for a sample, in which the line of `value_3` "
         "computes value 3 of the reports. Under the meaning of C that is written down it runs as the written equations. With `--simulate` "
         "or `--inputs` a test of it stands after it.",
         "docs/GUIDE.md, \"From the file to the board\".",
         "motor_pi.dsv --emit-c"),
    Kind("The words", 0, r"sha256 .*",
         "`--words`: the SHA-256 digest of each file that was read, with the name that the command line has for it; the format, the "
         "rounding and the overflow mode; the range of the inputs, after which `cut` says that the format has no words for all of the "
         "file's; and the words of the coefficients, as they stand in the written equations. In delta forms these are `delta` and the "
         "lists in the delta operator. In a cascade the words of each section follow its number, from 0 on; the range is FILE's. A "
         "state-space controller has the rows of A, and b, c and d. In a report the same lines stand after its heading, with "
         "TIMING the costs that it took too: so a field of the block `hardware` that was passed over for its spelling is seen. With "
         "`--check` the words are those of the certificate's design.",
         "compare the words with those in the code on the board, and the digests with those of the files that are kept.",
         "small/delta_two.dsv --words --realization DDFII"),
    Kind("A tally", 0, r"GENERATED .*",
         "`--generate`: of the generated controllers, how many have each verdict.",
         "nothing: it tries the program.",
         "--generate 1"),
    Kind("A certificate", 0, r"dsv-certificate [12]\n.*",
         "`--certificate`: the evidence of a SUCCESSFUL verdict, in place of the report. docs/CERTIFICATES.md has the text of each kind.",
         "keep it with the controller's file; `--check` judges it.",
         "low_pass_in_bytes.dsv --property OVERFLOW --gain --certificate"),
    Kind("An accepted certificate", 0, r"CERTIFICATE ACCEPTED\n(?!.* plant\n).*",
         "`--check`: the controller of the file has the certificate's property, in the realisation, the rounding and the overflow mode of the certificate's "
         "second line. Of a certificate of kind `error` a line `error` follows: the range in which the output less that of exact arithmetic stays.",
         "`--words`, which says the rounding, the mode and the words, and the digests of both files.",
         "small/order_two.dsv --check small/order_two.cert"),
    Kind("An accepted certificate of a loop", 0, r"CERTIFICATE ACCEPTED\n.* plant\n",
         "`--check` with `--plant`: the loop of the controller with the plant is stable.",
         "nothing.",
         "small/half_pole.dsv --check small/half_pole_in_a_loop.cert --plant small/plant_one.dsv"),
    Kind("An ellipsoid", 0, r"dsv-ellipsoid 1\n.*",
         "`--offer-ellipsoid`: an ellipsoid that its check accepts. So no list of inputs in range, however long, overflows.",
         "keep it with the controller's file; `--unbounded --ellipsoid` judges it.",
         None, "None stands here: docs/CERTIFICATES.md has the text of one."),
    Kind("A formula", 0, r"p cnf .*",
         "`--formula`: the question itself, as DIMACS.",
         "give it to another solver, as docs/GUIDE.md says.",
         None, "None stands here: the text is long. docs/GUIDE.md has the first line of one."),
]

REFUSED = [
    Kind("1 `UTF8`", 2, r"FILE REFUSED 1 .*", "a byte that isn't UTF-8", "write the letter otherwise",
         "small/not_utf8.dsv --property STABILITY"),
    Kind("2 `TOKEN`", 2, r"FILE REFUSED 2 .*", "no name, number or sign of the grammar", "look at that place: a unit, a comment without an end",
         "small/unit.dsv --property STABILITY"),
    Kind("3 `UNEXPECTED`", 2, r"FILE REFUSED 3 .*", "what stands there can't go on the file",
         "put there what is `wanted`; a field that isn't known has to go", "small/scale.dsv --property STABILITY"),
    Kind("4 `FIELD_TWICE`", 2, r"FILE REFUSED 4 .*", "the block has this field already", "leave one", "small/twice.dsv --property STABILITY"),
    Kind("5 `FIELD_MISSING`", 2, r"FILE REFUSED 5 .*", "the block that ends there lacks the `field`", "add it",
         "small/missing.dsv --property STABILITY"),
    Kind("6 `NUMBER`", 2, r"FILE REFUSED 6 .*", "a number breaks the rule or the range of its field", "docs/FILE.md has both",
         "small/too_many_digits.dsv --property STABILITY"),
    Kind("7 `SIZE_MISMATCH`", 2, r"FILE REFUSED 7 .*", "`b_size` or `a_size` isn't its list's length", "count again",
         "small/wrong_size.dsv --property STABILITY"),
    Kind("8 `LENGTH`", 2, r"FILE REFUSED 8 .*", "a list hasn't one to nine numbers", "order 8 is the highest",
         "small/ten_coefficients.dsv --property STABILITY"),
    Kind("9 `LEADING_ZERO`", 2, r"FILE REFUSED 9 .*", "a_0 is 0", "begin `a` with another number",
         "small/leading_zero.dsv --property STABILITY"),
    Kind("10 `FRACTION_WIDE`", 2, r"FILE REFUSED 10 .*", "the fraction of a number, or its quotient by a_0, has too many digits", "fewer digits",
         "small/wide_number.dsv --property STABILITY"),
    Kind("11 `WIDTH`", 2, r"FILE REFUSED 11 .*", "words of fewer than 2 or more than 48 bits, or none before the point",
         "other `int_bits` and `frac_bits`", "small/wide_words.dsv --property STABILITY"),
    Kind("12 `TOO_LONG`", 2, r"FILE REFUSED 12 .*", "over 65,536 bytes", "a shorter file", "small/too_long.dsv --property STABILITY"),
    Kind("21 `COEFFICIENT_RANGE`", 2, r"FILE REFUSED 21 .*", "the coefficient of this list and index would be `wanted`, which is no word",
         "more `int_bits`, or coefficients that are scaled", "small/wide_a.dsv --property STABILITY"),
    Kind("22 `DELTA_NOT_POSITIVE`", 2, r"FILE REFUSED 22 .*", "delta's word isn't above 0, or the file has no delta",
         "a `delta` of at least 2^-frac_bits", "small/half_pole.dsv --realization DDFI --property STABILITY"),
    Kind("23 `RANGE_EMPTY`", 2, r"FILE REFUSED 23 .*", "no word lies from `min` to `max`", "a wider range",
         "small/between_words.dsv --simulate 0 --rounding CEIL"),
    Kind("24 `FRACTION_WIDE`", 2, r"FILE REFUSED 24 .*", "a number on the way to this word has too many digits", "fewer digits, or a larger `delta`",
         "small/wide_delta_sum.dsv --simulate 0 --realization DDFI"),
    Kind("25 `INPUT_RANGE`", 2, r"FILE REFUSED 25 .*", "the input of this number is no word", "inputs are words: 1.0 is 2^frac_bits",
         "small/pole.dsv --simulate 8"),
    Kind("81 `NUMBER`", 2, r"INPUTS REFUSED 81 .*", "in this line of a file of inputs something isn't `-` or nothing before 1 to 15 digits",
         "whole numbers, with blanks, line ends and commas between them", "small/halving.dsv --inputs small/inputs_wrong.txt"),
    Kind("82 `MANY`", 2, r"INPUTS REFUSED 82 .*", "a file of inputs has more than 65,536 numbers", "a shorter run", None, "none stands here"),
    Kind("83 `NONE`", 2, r"INPUTS REFUSED 83 .*", "a file of inputs has no number", "one at least", "small/halving.dsv --inputs small/inputs_blank.txt"),
    Kind("84 `TOO_LONG`", 2, r"INPUTS REFUSED 84 .*", "a file of inputs has over 1 MiB", "a shorter file", None, "none stands here"),
    Kind("31 `ORDER`", 2, r"CASCADE REFUSED 31 .*", "this section of a cascade, 0 for FILE, has an order over 2", "split it",
         "small/half_pole.dsv --sections small/third_order.dsv --property STABILITY"),
    Kind("32 `MIXED`", 2, r"CASCADE REFUSED 32 .*", "this section of a cascade hasn't FILE's format or `wide`", "one format for all",
         "small/half_pole.dsv --sections small/pole.dsv --property STABILITY"),
    Kind("41 `LINE`", 2, r"STATE FILE REFUSED 41 .*", "this line of a state-space controller's file is another than wanted", "docs/FILE.md has the lines",
         "--state-space small/without_end.states --simulate 0"),
    Kind("42 `NUMBER`", 2, r"STATE FILE REFUSED 42 .*", "in this line the piece at this place, from 0 on after the first word, isn't the number that is wanted",
         "docs/FILE.md has the ranges", "--state-space small/bad_entry.states --simulate 0"),
    Kind("43 `WIDTH`", 2, r"STATE FILE REFUSED 43 .*", "in this line words of fewer than 2 or more than 48 bits", "another `format`",
         "--state-space small/width_49.states --simulate 0"),
    Kind("44 `COEFFICIENT_RANGE`", 2, r"STATE FILE REFUSED 44 .*", "the entry of this matrix, row and column would be the last number, which is no word",
         "more bits before the point, or states that are scaled", "--state-space small/twice_the_sum.states --property OVERFLOW --x-size 2"),
    Kind("45 `FRACTION_WIDE`", 2, r"STATE FILE REFUSED 45 .*", "this entry has too many digits", "fewer digits", "--state-space small/wide_entry.states --simulate 0"),
    Kind("46 `RANGE_EMPTY`", 2, r"STATE FILE REFUSED 46 .*", "no word lies in the range", "a wider range", "--state-space small/no_inputs_left.states --simulate 0"),
    Kind("65 `REALISATION`", 2, r"LOOP REFUSED 65 .*", "the controller is in DDFI, whose registers u_1 .. u_N add up its inputs: they are poles of the loop at 1", "DDFII or TDDFII",
         "small/late_half.dsv --property STABILITY --plant small/plant_one.dsv --realization DDFI"),
    Kind("61 `SAMPLE_TIME`", 2, r"LOOP REFUSED 61 .*", "the plant's sample time isn't the controller's", "one sample time for both, 1 where a file says none",
         "small/half_pole.dsv --property STABILITY --plant small/plant_slow.dsv"),
    Kind("62 `ALGEBRAIC`", 2, r"LOOP REFUSED 62 .*", "both answer an input in the same sample", "a plant whose `b` begins with 0: it answers a sample later",
         "small/half_pole.dsv --property STABILITY --plant small/plant_at_once.dsv"),
    Kind("after a line `plant`", 2, r"plant\nFILE REFUSED .*", "the plant's file is refused", "as above",
         "small/half_pole.dsv --property STABILITY --plant small/two_plants.dsv"),
    Kind("after a line `section I`", 2, r"section [1-7]\nFILE REFUSED .*",
         "the file of this section of a cascade is refused, 1 for the first of `--sections`", "as above",
         "small/half_pole.dsv --sections small/missing.dsv,small/half_pole.dsv --property STABILITY"),
]

STOPPED = [
    Kind("The command line", 1, r"USAGE\n", "it is not valid", "standard error says why; `./dsv --help`",
         "small/modes.dsv --property stability"),
    Kind("A line after `--why`", 1, r"(?!USAGE\n)[^\n]+\n", "why the line is not valid: the first reason", "what the reason names",
         "--why small/modes.dsv --property OVERFLOW --x-size 65"),
    Kind("The controller's file", 3, r"READ FAULT CONTROLLER\n", "it can't be read", "standard error names it, and says why",
         "small/none.dsv --property STABILITY"),
    Kind("The plant's file", 3, r"READ FAULT PLANT\n", "it can't be read", "standard error names it, and says why",
         "small/half_pole.dsv --property STABILITY --plant small/none.dsv"),
    Kind("A section's file", 3, r"READ FAULT SECTION [1-7]\n", "that of this section of a cascade can't be read",
         "standard error names it, and says why", "small/half_pole.dsv --sections small/half_pole.dsv,small/none.dsv --property STABILITY"),
    Kind("The certificate's file", 3, r"READ FAULT CERTIFICATE\n", "it can't be read", "standard error names it, and says why",
         "small/order_two.dsv --check small/none.cert"),
    Kind("The file of the inputs", 3, r"READ FAULT INPUTS\n", "it can't be read", "standard error names it, and says why",
         "small/halving.dsv --inputs small/none.txt"),
    Kind("The output", 4, r"OUTPUT\n", "it failed, after a prefix of the text", "look at the disk", None, "none stands here"),
    Kind("Memory", 5, r"NO MEMORY\n", "out of memory", "fewer samples", None, "none stands here"),
    Kind("The job's size", 6, r"JOB SIZE .*", "samples (nine for `--unbounded`) times products times the square of a word's bits is over 250,000",
         "fewer samples or bits; a direct form", "small/large_job.dsv --property OVERFLOW --x-size 49"),
    Kind("The code's width", 6, r"CODE REFUSED 71 .*", "71 `WIDE`: `--emit-c`, and this value needs more than 64 bits", "fewer bits; without `wide`",
         "small/widest_sum.dsv --emit-c"),
    Kind("The arguments", 8, r"ARGUMENTS\n", "they can't be read; nothing is written", "names of files in UTF-8", None, "none stands here"),
    Kind("The launcher", 9, r"LAUNCHER\n", "nothing could be run: standard error says why", "`./dsv --prove`, and the toolchain", None,
         "none stands here"),
]

CERTIFICATES = [
    Kind("1 `VERSION`", 7, r"CERTIFICATE REFUSED .* code 1 .*", "the first line is another", "",
         "small/order_two.dsv --check small/next_version.cert"),
    Kind("2 `KIND`", 7, r"CERTIFICATE REFUSED .* code 2 .*", "no job or no kind, or a kind that belongs to no such job", "",
         "small/order_two.dsv --check small/other_kind.cert"),
    Kind("3 `NUMBER`", 7, r"CERTIFICATE REFUSED .* code 3 .*", "a piece is no number, or out of its range", "",
         "small/order_two.dsv --check small/no_number.cert"),
    Kind("4 `LINE`", 7, r"CERTIFICATE REFUSED .* code 4 .*", "another word or number of pieces than wanted", "",
         "small/order_two.dsv --check small/short_line.cert"),
    Kind("5 `END`", 7, r"CERTIFICATE REFUSED .* code 5 .*", "it isn't ended, or goes on after `end`", "",
         "small/order_two.dsv --check small/order_two_without_end.cert"),
    Kind("6 `STEP`", 7, r"CERTIFICATE REFUSED .* code 6 .*", "a step of a log doesn't follow", "",
         "small/average.dsv --check small/average_with_another_hint.cert"),
    Kind("7 `FORM`", 7, r"CERTIFICATE REFUSED .* code 7 .*", "a part of a form doesn't hold", "",
         "small/order_two.dsv --check small/order_two_with_24.cert"),
    Kind("8 `SHAPE`", 7, r"CERTIFICATE REFUSED .* code 8 .*", "a form or a set of another shape than the controller", "",
         "small/half_pole.dsv --check small/order_two.cert"),
    Kind("9 `TOO_LONG`", 7, r"CERTIFICATE REFUSED .* code 9 .*", "over 64 MiB", "", None, "none stands here"),
    Kind("10 `FORMAT`", 7, r"CERTIFICATE REFUSED .* code 10 .*",
         "it is of another format than the controller's words: of version 1 where they have over 32 bits, or it says other numbers of bits", "",
         "small/order_two.dsv --check small/order_two_with_another_format.cert"),
    Kind("11 `GAIN`", 7, r"CERTIFICATE REFUSED .* code 11 .*", "at this depth, and before it, some range isn't known to be one of words", "",
         "low_pass_in_bytes.dsv --check small/low_pass_in_bytes_too_early.cert"),
    Kind("12 `ERROR`", 7, r"CERTIFICATE REFUSED .* code 12 .*", "differences from exact runs aren't known to stay in the box", "",
         "low_pass_in_bytes.dsv --check small/low_pass_in_bytes_narrow_box.cert"),
]

ELLIPSOIDS = [
    Kind("13 `TABLE`", 7, r"CERTIFICATE REFUSED .* code 13 .*", "a coefficient isn't the polynomial's, or (line of the kind) a first number of its table isn't positive", "",
         "small/half_pole.dsv --check small/unstable_loop.cert --plant small/plant_negative.dsv"),
    Kind("1 `VERSION`", 7, r"ELLIPSOID REFUSED line .* code 1 .*", "the first line is another", "",
         "small/resonance.dsv --property OVERFLOW --unbounded --ellipsoid small/resonance_other_version.ellipsoid"),
    Kind("3 `NUMBER`", 7, r"ELLIPSOID REFUSED line .* code 3 .*", "a piece is no number, or out of its range", "",
         "small/resonance.dsv --property OVERFLOW --unbounded --ellipsoid small/resonance_without_number.ellipsoid"),
    Kind("4 `LINE`", 7, r"ELLIPSOID REFUSED line .* code 4 .*", "another word or number of pieces than wanted", "",
         "small/resonance.dsv --property OVERFLOW --unbounded --ellipsoid small/resonance_wrong_word.ellipsoid"),
    Kind("5 `END`", 7, r"ELLIPSOID REFUSED line .* code 5 .*", "it isn't ended, or goes on after `end`", "",
         "small/resonance.dsv --property OVERFLOW --unbounded --ellipsoid small/resonance_cut.ellipsoid"),
    Kind("51 `SHAPE`", 7, r"ELLIPSOID REFUSED 51 .*",
         "the controller isn't in DFI without `wide` and of an order from 1 to 7, or the form isn't one of its order", "",
         "small/resonance.dsv --property OVERFLOW --unbounded --ellipsoid small/resonance.ellipsoid --realization DFII"),
    Kind("52 `SIGN`", 7, r"ELLIPSOID REFUSED 52 .*",
         "negative: 0 the level, 1 lambda, 2 mu, 4 nu; 3: kappa is less than 1; 5: the bound isn't from 0 to the greatest word", "",
         "small/resonance.dsv --property OVERFLOW --unbounded --ellipsoid small/resonance_bound_2048.ellipsoid"),
    Kind("53 `WIDE`", 7, r"ELLIPSOID REFUSED 53 .*",
         "a number is too large: 0 the disturbance, 1 its square and mu times that, 2 lambda times the level, 3 the sum of both, 4 2^(2 "
         "`frac_bits`) times the level, 5 nu times the level, 6 kappa times the square of the bound and 1, 7 on the way to an entry", "",
         "small/resonance.dsv --property OVERFLOW --unbounded --ellipsoid small/resonance_great_form.ellipsoid"),
    Kind("54 `LEVEL`", 7, r"ELLIPSOID REFUSED 54 .*", "a step may leave the ellipsoid", "",
         "small/resonance.dsv --property OVERFLOW --unbounded --ellipsoid small/resonance_with_mu_513.ellipsoid"),
    Kind("55 `STEP`", 7, r"ELLIPSOID REFUSED 55 .*", "the squares of the step form don't show it", "",
         "small/resonance.dsv --property OVERFLOW --unbounded --ellipsoid small/resonance_other_step_square.ellipsoid"),
    Kind("56 `FIRST`", 7, r"ELLIPSOID REFUSED 56 .*", "the squares of the first form don't show it", "",
         "small/resonance.dsv --property OVERFLOW --unbounded --ellipsoid small/resonance_other_first_square.ellipsoid"),
    Kind("57 `BOUND`", 7, r"ELLIPSOID REFUSED 57 .*", "an output in the ellipsoid may pass the bound", "",
         "small/resonance.dsv --property OVERFLOW --unbounded --ellipsoid small/resonance_with_958.ellipsoid"),
    Kind("58 `INTERVAL`", 7, r"ELLIPSOID REFUSED 58 .*",
         "within the bound the exact value of this number may leave the words: its least and its greatest", "",
         "small/resonance_in_11_bits.dsv --property OVERFLOW --unbounded --ellipsoid small/resonance.ellipsoid"),
]

HEAD = """\
# What the command answers

Every answer, with an example from the stored runs of `cases/`, where one stands there. docs/answers.py writes this
page. Numbers of inputs, outputs, registers and exact values are words: w stands for w / 2^frac_bits. The program writes
nothing to standard error; the launcher `./dsv` says there what it does as long as the program isn't proved and built, and
what helps after a refusal or a read fault.
"""

SECTIONS = [
    ("OVERFLOW", None, OVERFLOW),
    ("LIMIT_CYCLE", None, CYCLES),
    ("STABILITY and MINIMUM_PHASE", None, ROOTS),
    ("STABILITY of a cascade", None, SERIES),
    ("STABILITY of a loop", None, LOOPS),
    ("STABILITY of a state-space controller", None, STATES),
    ("TIMING",
     "Each product is charged its rounding, and each product and each sum its fitting into a word, with `wide` too, which rounds and "
     "fits once a line. So for a file with `wide` the cycles are an upper bound; `cost_round` and `cost_fit` may be 0 where the processor "
     "has them for nothing, as with an accumulator that is wide and saturates.", TIMES),
    ("Other answers", None, OTHERS),
    ("Refused files: status 2",
     "`at` is a byte's place, from 0 on; the launcher says its line and column. docs/FILE.md says where each refusal stands, "
     "and in which order they come.", REFUSED),
    ("No answer", None, STOPPED),
    ("Refused certificates: status 7",
     "The line is the first that is wrong. A refusal doesn't mean that the property fails: ask for the verdict, or make the "
     "certificate again. docs/CERTIFICATES.md has the lines.", CERTIFICATES),
    ("Refused ellipsoids: status 7",
     "The first test that refuses counts. docs/CERTIFICATES.md has the lines of the text, and what the numbers are; a file over 64 MiB "
     "is refused as a certificate is.", ELLIPSOIDS),
]
TABLES = {"Refused files: status 2": "Code", "No answer": "What fails", "Refused certificates: status 7": "Code",
          "Refused ellipsoids: status 7": "Code"}


def stored_runs():
    """What each case wrote, and its status, in the order of the list."""
    with open(STORED, encoding="utf-8") as file:
        runs = re.findall(r"^== (.*)\n((?:.*\n)*?)status (\d+)\n", file.read(), re.M)
    with open(CASES, encoding="utf-8") as file:
        cases = [line for line in file.read().split("\n") if line and not line.startswith("#")]
    if [case for case, _, _ in runs] != cases:
        sys.exit(f"answers: the runs of {STORED} aren't those of {CASES}")
    return {case: (text, int(status)) for case, text, status in runs}


# The lines that --words adds to a report, after its two first ones.
TOLD = re.compile(r"(?<=\n)(?:sha256 .*\n)+format .*\n(?:(?:range|section|delta|a|b|c|d|cost_sample) .*\n)*")


def is_of(kind, run):
    """Whether what a case wrote, but for the lines that tell words, is an answer of this kind."""
    return run[1] == kind.status and re.fullmatch(kind.pattern, TOLD.sub("", run[0], 1), re.S) is not None


def faults_of(runs, kinds):
    """What is wrong between the runs and the tables."""
    for case, run in runs.items():
        titles = [kind.title for kind in kinds if is_of(kind, run)]
        if len(titles) != 1:
            yield f"{case}: it is of {len(titles)} kinds: {', '.join(titles)}"
    for kind in kinds:
        if kind.case and not (kind.case in runs and is_of(kind, runs[kind.case])):
            yield f"{kind.title}: {kind.case} is no example of it"
        if not kind.case and any(is_of(kind, run) for run in runs.values()):
            yield f"{kind.title}: there is an example"


def place_of(argument):
    """Where a file of a case stands in the repository."""
    place = f"examples/{argument}"
    return place if os.path.exists(place) else f"cases/files/{argument}"


def command_of(case):
    words = [",".join(place_of(file) for file in word.split(",")) if re.search(r"^[^-].*\.(?:dsv|states|cert|ellipsoid|txt)$", word) else word
             for word in case.split(" ")]
    return " ".join(["./dsv"] + words)


def filled(text):
    return textwrap.fill(text, 120, break_on_hyphens=False, break_long_words=False)


def lines_of(kind, runs):
    """The part of the page that an answer has."""
    yield f"\n### {kind.title}: status {kind.status}\n"
    yield filled(kind.means)
    yield "\n" + filled(f"What to do: {kind.next}")
    if kind.case:
        yield "\n    $ " + command_of(kind.case)
        told = re.sub(r"(?m)^(sha256 \w+ )(.*)$", lambda line: line[1] + place_of(line[2]), runs[kind.case][0])
        yield textwrap.indent(told.rstrip("\n"), "    ")
    else:
        yield "\n" + kind.why


def rows_of(title, kinds, runs):
    """The rows of a table of refusals."""
    has_status = len({kind.status for kind in kinds}) > 1
    has_next = any(kind.next for kind in kinds)
    heads = [TABLES[title]] + ["Status"] * has_status + ["Means"] + ["What to do"] * has_next + ["Example, a case of the list"]
    yield "\n| " + " | ".join(heads) + " |"
    yield "|---" * len(heads) + "|"
    for kind in kinds:
        text = f"`{kind.case}`: `{' / '.join(runs[kind.case][0].rstrip().split(chr(10)))}`" if kind.case else kind.why
        cells = [kind.title] + [str(kind.status)] * has_status + [kind.means] + [kind.next] * has_next + [text]
        yield "| " + " | ".join(cells) + " |"


def page(runs):
    parts = [HEAD]
    for title, text, kinds in SECTIONS:
        parts.append(f"\n## {title}")
        if text:
            parts.append("\n" + filled(text))
        for kind in [] if title in TABLES else kinds:
            parts += lines_of(kind, runs)
        parts += rows_of(title, kinds, runs) if title in TABLES else []
    return "\n".join(parts).replace("\n\n\n", "\n\n") + "\n"


def main():
    runs = stored_runs()
    faults = list(faults_of(runs, [kind for _, _, kinds in SECTIONS for kind in kinds]))
    if faults:
        sys.exit("answers: " + "\nanswers: ".join(faults))
    if sys.argv[1:] == ["--check"]:
        with open(PAGE, encoding="utf-8") as file:
            if file.read() != page(runs):
                sys.exit(f"answers: {PAGE} isn't what docs/answers.py writes")
        return
    with open(PAGE, "w", encoding="utf-8") as file:
        file.write(page(runs))


if __name__ == "__main__":
    main()
