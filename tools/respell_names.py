#!/usr/bin/env python3
"""Respells this repository's own definitions, lemmas and fields: words in snake case, a dash only between two names.

usage: python3 tools/respell_names.py [FOLDER]     (the top of a checkout; the current folder where none is given)

Run once, after the toolchain's own port script. It changes whole names in .rt, .antt and .edit files below crates/, and
stops before the first change where an old name is imported from another library, or a new one is declared already on a
line `name : type`. It sees no other way of taking a name (parameters, imports, Rust's own names): look for those by hand.
"""
import os
import re
import sys

# old=new
NAMES = dict(pair.split("=") for pair in """
    admitted-ok=admitted_ok afterStrike=after_strike afterTake=after_take all-below=all_below_lem
    all-powers=all_powers answerLast=answer_last answerTo=answer_to basis-associates=basis_associates
    basis-commutes=basis_commutes basis-keeps=basis_keeps basis-stays=basis_stays below-front=below_front
    bits-times=bits_times by-bases=by_bases by-basis=by_basis byLetter=by_letter capLedger=cap_ledger capRows=cap_rows
    check-complete=check_complete check-passed=check_passed check-refused=check_refused
    coefficient-bit=coefficient_bit coefficient-linear=coefficient_linear columnValue=column_value
    containsAll=contains_all contentOf=content_of count-other=count_other count-separator=count_separator
    countIn=count_in decimal-whole=decimal_whole difference-zero=difference_zero digit-high=digit_high
    digit-large=digit_large digit-more=digit_more divides-not=divides_not doubles-at=doubles_at empty-none=empty_none
    emptyRow=empty_row ended-empty=ended_empty ended-last=ended_last equal-below=equal_below equal-pairs=equal_pairs
    equal-triples=equal_triples err-ok=err_ok even-refused=even_refused few-minutes=few_minutes few-rows=few_rows
    fields-each=fields_each fieldsFrom=fields_from first-length=first_length first-whole=first_whole
    firstBeyond=first_beyond firstFrom=first_from firstLetter=first_letter firstMinute=first_minute
    firstNumber=first_number firstWeight=first_weight flat-push=flat_push found-inverse=found_inverse
    frame-passed=frame_passed frame-read=frame_read frame-terms=frame_terms frame-words=frame_words
    front-answer=front_answer front-append=front_append front-front=front_front front-is-frame=front_is_frame
    front-line=front_line front-part=front_part glue-empty=glue_empty glue-first=glue_first glue-next=glue_next
    grows-more=grows_more held-terms=held_terms here-beyond=here_beyond high-code=high_code high-count=high_count
    high-inverts=high_inverts high-left=high_left high-less=high_less high-most=high_most high-some=high_some
    in-number=in_number inverse-code=inverse_code inverse-of=inverse_of inverse-unique=inverse_unique
    inverse-works=inverse_works is-frame=is_frame join-next=join_next keeps-more=keeps_more keeps-none=keeps_none
    keeps-part=keeps_part kept-front=kept_front later-beyond=later_beyond layerAt=layer_at layerName=layer_name
    lead-decimal=lead_decimal lead-none=lead_none leads-at=leads_at left-more=left_more letter-decides=letter_decides
    letter-is=letter_is letter-read=letter_read letter-whole=letter_whole letterFor=letter_for letterOf=letter_of
    line-answered=line_answered line-cut=line_cut line-each=line_each line-grows=line_grows line-only=line_only
    line-short=line_short line-unfinished=line_unfinished linear-zero=linear_zero log-answered=log_answered
    log-below=log_below log-checked=log_checked log-count=log_count log-of=log_of long-more=long_more
    long-refused=long_refused low-code=low_code low-inverts=low_inverts low-is=low_is low-left=low_left
    low-less=low_less low-most=low_most low-some=low_some lower-low=lower_low many-refused=many_refused
    map-twice=map_twice mapOk=map_ok minute-front=minute_front minute-over=minute_over minute-rises=minute_rises
    minute-stays=minute_stays minuteAt=minute_at minutes-below=minutes_below minutes-pass=minutes_pass
    minutes-rise=minutes_rise modulo-laws=modulo_laws more-filled=more_filled more-whole=more_whole
    mul-mod-l=mul-mod_l mul-mod-r=mul-mod_r name-short=name_short negative-between=negative_between
    negative-between-plus=negative_between_plus negative-code=negative_code negative-reads=negative_reads
    negative-unique=negative_unique next-most=next_most no-numbers=no_numbers noTerm=no_term none-beyond=none_beyond
    none-of-zero=none_of_zero none-some=none_some none-times=none_times nth-none=nth_none nth-some=nth_some
    number-no-letter=number_no_letter number-reads=number_reads number-written=number_written
    numbers-passed=numbers_passed numbers-read=numbers_read numbers-stop=numbers_stop octet-field=octet_field
    octet-inverse=octet_inverse octet-laws=octet_laws octet-linear=octet_linear octet-power=octet_power
    octet-product=octet_product octetTimes=octet_times onFirst=on_first open-number=open_number
    other-refused=other_refused part-all=part_all part-answered=part_answered part-holds=part_holds
    part-rest=part_rest part-unfinished=part_unfinished part-whole=part_whole parts-only=parts_only
    pileLedger=pile_ledger pileRows=pile_rows plain-decimal=plain_decimal plain-read=plain_read
    plus-between=plus_between plus-between-plus=plus_between_plus plus-beyond=plus_beyond
    plus-beyond-plus=plus_beyond_plus plus-cancel=plus_cancel plus-code=plus_code plus-left=plus_left
    plus-left-comm=plus_left_comm plus-reads=plus_reads plus-right=plus_right plus_times=plus-times
    power-255=power_255 power-code=power_code power-of-log=power_of_log powersFrom=powers_from prime-field=prime_field
    prime-inverse=prime_inverse prime-laws=prime_laws prime-product=prime_product product-away=product_away
    product-left=product_left product-more=product_more product-right=product_right puts-line=puts_line
    puts-more=puts_more puts-refusal=puts_refusal read-term=read_term readFields=read_fields reads-frame=reads_frame
    reciprocal-of=reciprocal_of reduced-products=reduced_products refusal-short=refusal_short
    refusalLayer=refusal_layer refusalNumber=refusal_number refusalPlace=refusal_place refusedLine=refused_line
    refuses-many=refuses_many refuses-none=refuses_none remainder-linear=remainder_linear
    ring-normalises=ring_normalises rising-front=rising_front room-more=room_more room-number=room_number
    room-place=room_place room-sum=room_sum room-terms=room_terms row-found=row_found row-missing=row_missing
    rowValue=row_value rowValueOf=row_value_of rows-after=rows_after rows-struck=rows_struck
    satisfied-zero=satisfied_zero separator-next=separator_next seven-field=seven_field seven-laws=seven_laws
    shift-linear=shift_linear shifted-away=shifted_away slot-formed=slot_formed slotRow=slot_row slots-fit=slots_fit
    small-divisor=small_divisor sofar-all=sofar_all sofar-kept=sofar_kept sofar-none=sofar_none sofar-past=sofar_past
    some-minutes=some_minutes some-none=some_none some-of-others=some_of_others some-times=some_times
    spelling-all=spelling_all spelling-more=spelling_more spelling-none=spelling_none split-last=split_last
    split-more=split_more split-some=split_some split-whole=split_whole still-below=still_below
    stops-minute=stops_minute stops-weight=stops_weight strikeAnswer=strike_answer sum-stops=sum_stops sumIn=sum_in
    sumOfRow=sum_of_row systemOf=system_of table-answer=table_answer table-formed=table_formed table-rules=table_rules
    tablesPass=tables_pass takeAnswer=take_answer taken-below=taken_below taken-number=taken_number
    taken-room=taken_room term-next=term_next termCountOf=term_count_of termIn=term_in termOf=term_of
    terms-short=terms_short terms-stop=terms_stop terms-words=terms_words termsIn=terms_in termsOf=terms_of
    termsText=terms_text times-assoc=times_assoc times-bit=times_bit times-cancel=times_cancel times-code=times_code
    times-comm=times_comm times-completion=times_completion times-left=times_left times-left-comm=times_left_comm
    times-reads=times_reads times-right=times_right times-stays=times_stays times-zero-read=times_zero_read
    times_mod=times-mod times_zero=times-zero to-high-most=to_high_most to-low-most=to_low_most toCome=to_come
    toHigh=to_high toLow=to_low two-codes=two_codes undivided-by-test=undivided_by_test weight-front=weight_front
    weight-none=weight_none weight-some=weight_some weightAt=weight_at weightFor=weight_for
    weighted-front=weighted_front weights-pass=weights_pass weights-some=weights_some whole-tail=whole_tail
    words-front=words_front words-weights=words_weights written-numbers=written_numbers xor-code=xor_code
    xor-exchange=xor_exchange zero-read-times=zero_read_times zero-satisfies=zero_satisfies
""".split())

OWN = ("Rattle.field.", "Rattle.fieldspeed.", "Rattle.fieldtable.", "Rattle.frame.", "Rattle.lines.", "Rattle.framelog.",
       "Rattle.framecheck.", "Rattle.worked.", "Rattle.rows.")
WORD = re.compile(r"(?<![\w'\-\u25cc])[A-Za-z_][\w']*(?:-[\w']+)*(?![\w'\-])")
USE = re.compile(r"^\s*(?:ghost )?(?:pub )?use ([\w.\-+]+)\.\{([^}]*)\}", re.M)


def texts(root):
    for folder, folders, files in os.walk(os.path.join(root, "crates")):
        folders[:] = sorted(name for name in folders if name != "out")
        for name in sorted(files):
            if name.endswith((".rt", ".antt", ".edit")):
                path = os.path.join(folder, name)
                with open(path, encoding="utf-8") as file:
                    yield path, file.read()


def main():
    root = sys.argv[1] if len(sys.argv) > 1 else "."
    found = list(texts(root))
    for path, text in found:
        for module, names in USE.findall(text):
            if not (module + ".").startswith(OWN):
                foreign = sorted(set(re.split(r"[,\s]+", names)) & set(NAMES))
                if foreign:
                    sys.exit(f"{path}: {foreign} come from {module}")
        if not path.endswith(".rt"):
            taken = sorted(set(re.findall(r"^\s*(?:\w+ )*([^\s:(){}]+) : ", text, re.M)) & set(NAMES.values()))
            if taken:
                sys.exit(f"{path}: {taken} stand here already")
    changed = 0
    for path, text in found:
        new = WORD.sub(lambda word: NAMES.get(word.group(), word.group()), text)
        if new != text:
            changed += 1
            with open(path, "w", encoding="utf-8") as file:
                file.write(new)
    print(f"{changed} files respelled")


main()
