#!/usr/bin/env python3
"""Tries must-fail edits on the functions alone that they change, over the libraries that `rt ci` built: the prover has to refuse each.

    try.py              those of TRIED, as the gate does
    try.py NAME/EDIT..  these, of tests/edits or of the crates' must-fail; NAME/EDIT=PATH where several functions have the name, or the text is in none

It asks the toolchain's own `rt` to read, apply and check edits. The check is of the functions that the edits change, so it says of the
callers of these nothing; what is refused is that function's own contract. No proof of the whole crate comes before it, as `rt ci` has
one before the edits of crates/NAME/must-fail.

A check reads all libraries below its crate, which for a crate of the hall takes most of its time. So edits of one crate are tried together, as far as none changes
a function from which one may come to a function of another: what is refused of the one says then nothing of the other. Where such a check says anything
but which of these functions are proved, each of its edits is tried alone.
"""

import importlib.machinery
import importlib.util
import os
import re
import shutil
import sys
import tempfile
import time
from concurrent.futures import ThreadPoolExecutor

HERE = os.path.dirname(os.path.abspath(__file__))
ROOT = os.path.dirname(os.path.dirname(HERE))
LANES = int(os.environ.get("LANES", os.cpu_count() or 1))
TRIED = [
    "ps_access/denial_told_as_memory",
    "ps_access/pending_reads",
    "ps_access/publishers_anyone",
    "ps_affil/strangers_are_members",
    "ps_args/host_told_as_memory",
    "ps_args/host_with_a_resource",
    "ps_args/rehearse_told_as_memory",
    "ps_args/seventeen_streams",
    "ps_audit/a_line_is_told_at_another_entry",
    "ps_audit/a_node_that_is_gone_is_asked",
    "ps_audit/an_entry_is_passed_over",
    "ps_audit/another_rule_is_no_line",
    "ps_audit/equal_addresses_are_kept",
    "ps_audit/others_are_as_the_first_known",
    "ps_audit/reading_alone_is_compared",
    "ps_audit/subscribers_are_not_known",
    "ps_audit/the_roster_of_the_service_is_asked",
    "ps_audit/the_verdicts_before_are_told",
    "ps_audit_command/another_address_is_asked",
    "ps_audit_command/damage_told_elsewhere",
    "ps_audit_command/readers_told_for_verdicts",
    "ps_audit_run/others_are_left_out",
    "ps_audit_run/pending_is_told_as_denied",
    "ps_audit_run/publish_is_told_as_own",
    "ps_audit_run/the_node_that_is_not_there_is_no_line",
    "ps_audit_run/want_of_memory_is_told_as_a_fault",
    "ps_caps/checks_backwards",
    "ps_caps/forms_may_repeat_a_type",
    "ps_chains/the_oldest_is_the_newest",
    "ps_coll/under_itself",
    "ps_commands/address_told_as_memory",
    "ps_commands/any_word_mirrors",
    "ps_commands/feed_is_the_source",
    "ps_commands/five_digits_of_items",
    "ps_commands/service_with_a_resource",
    "ps_compact/an_occupied_store_is_done",
    "ps_compact/counters_left_out",
    "ps_compact/full_new_store_is_written_to",
    "ps_compact/nothing_is_written",
    "ps_compact/notices_left_out",
    "ps_compact_codec/link_names_its_child",
    "ps_compact_codec/moment_is_dropped",
    "ps_compact_codec/number_told_as_memory",
    "ps_compact_export/a_node_keeps_its_collection",
    "ps_compact_export/half_as_many_handed",
    "ps_compact_export/rows_are_left_out",
    "ps_compact_import/child_is_a_collection_already",
    "ps_compact_import/more_items_than_kept",
    "ps_config/readable_told_as_memory",
    "ps_config/two_values_for_one",
    "ps_core/accepted_without_its_request",
    "ps_core/commit_keeps_the_old",
    "ps_core/handed_though_none_is_left",
    "ps_core/notices_not_counted",
    "ps_core/row_after_a_boot",
    "ps_core/unaccepted_entry_is_prepared",
    "ps_disco/accounts_list_what_is_closed",
    "ps_disco/items_are_given_unasked=ps_disco::listed::check",
    "ps_disco/the_target_is_asked=ps_disco::listed::check",
    "ps_disk/lost_is_whole",
    "ps_drafts/address_is_not_quoted=ps_drafts::draft::message",
    "ps_effects/all_items_stay",
    "ps_effects/any_answer_is_kept",
    "ps_effects/retract_purges",
    "ps_endpoints/clock_not_given_back",
    "ps_endpoints/ports_given_back_in_reverse",
    "ps_entity/full_told_as_memory=ps_entity::roster::check",
    "ps_entity/oldest_items",
    "ps_entity/subscribers_read=ps_entity::items::check",
    "ps_events/last_item_again",
    "ps_events/publishers_are_asked",
    "ps_events/retract_is_told_anyway",
    "ps_fanout/contact_that_only_gives_presence",
    "ps_fanout/leaf_is_not_asked",
    "ps_fanout/nearest_is_passed_over",
    "ps_filter/another_resource_wants=ps_filter::asks::WantOfAskWant::passes",
    "ps_follow/commit_is_answered_by_its_result",
    "ps_follow/count_falls_at_cut",
    "ps_follow/gap_at_of_the_next_record",
    "ps_follow/other_bytes_are_passed_over",
    "ps_follow/repeated_is_taken_twice",
    "ps_follow_command/nothing_is_written_from_the_first",
    "ps_follow_run/first_byte_is_left_out",
    "ps_follow_run/place_plays_no_part",
    "ps_follow_run/place_stops_at_the_last",
    "ps_follow_run/stop_of_the_lines_told_as_memory",
    "ps_forms/form_of_any_type",
    "ps_gen/hosts_in_one_stream",
    "ps_gen/purge_for_delete",
    "ps_gen/seed_left_out",
    "ps_hall/arrives_without_a_flush",
    "ps_hall/change_past_the_limit_is_laid",
    "ps_hall/full_after_a_fault",
    "ps_hall/handed_before_it_is_durable",
    "ps_hall/lines_are_refused_a_byte_early",
    "ps_hall/lines_are_refused_with_room",
    "ps_hall/over_while_a_reader_runs",
    "ps_hall/writer_of_the_first_host_ends",
    "ps_hall_flush/failed_frame_counts_all_entries",
    "ps_hall_flush/fault_forgets_the_frames",
    "ps_hall_flush/fault_is_passed_over_where_all_is_flushed",
    "ps_hall_flush/frame_longer_than_it_is",
    "ps_hall_flush/leaves_what_is_not_flushed",
    "ps_hall_flush/mark_of_the_state_tells_no_fault=ps_hall_flush::home::HomeAnnals::mark",
    "ps_hall_flush/settles_what_came_since",
    "ps_hall_open/an_unlawful_store_is_read=ps_hall_open::replaying::WatchedTaker::take",
    "ps_hall_open/damaged_store_is_written_over",
    "ps_hall_open/full_told_as_memory",
    "ps_hall_open/handed_notice_stays",
    "ps_hall_open/no_entries_are_answered",
    "ps_hall_open/nothing_is_durable",
    "ps_hall_open/refused_entry_is_kept=ps_hall_open::replaying::WatchedTaker::take",
    "ps_hall_open/unlawful_store_opens",
    "ps_hall_state/fault_told_as_full",
    "ps_hall_state/frame_is_counted_longer",
    "ps_hall_state/notices_are_lost",
    "ps_hall_state/reply_taken_before_it_is_flushed",
    "ps_hall_state/shown_before_it_is_durable",
    "ps_hall_store/answers_ok_after_a_fault",
    "ps_hall_store/claims_more_than_it_wrote",
    "ps_hall_store/refuses_what_fits=ps_hall_store::store::Store::append",
    "ps_hall_store/writes_a_frame_twice",
    "ps_io/asked_as_another_kind=ps_io::mem_world::MemWorldWorld::open_sink",
    "ps_io/fault_not_counted",
    "ps_item_ids/counted_at_all_nodes=ps_item_ids::asks::CountOfAskCountRow::passes",
    "ps_items/evicts_the_newest",
    "ps_items/keeps_one_more",
    "ps_items/replaced_item_keeps_its_place",
    "ps_journal/a_failed_frame_counts",
    "ps_journal/a_fault_shortens_the_store",
    "ps_journal/a_fault_spoils_the_header",
    "ps_journal/a_gate_of_2_is_open",
    "ps_journal/edge_read_from_before",
    "ps_journal/gate_before_the_sync",
    "ps_journal/kept_though_cut_short",
    "ps_journal/not_broken",
    "ps_journal/nothing_is_appended",
    "ps_journal/piece_is_the_end",
    "ps_mirror/believes_any_sender",
    "ps_mirror/ends_at_a_long_line",
    "ps_mirror/keeps_an_old_item",
    "ps_mirror/keeps_one_more",
    "ps_mirror/purges_another_node",
    "ps_mirror/reports_no_newline",
    "ps_mirror/retracts_the_last",
    "ps_mirror/stop_of_the_lines_told_as_memory",
    "ps_mirror/takes_a_repeat",
    "ps_mirror/takes_number_zero",
    "ps_mirror/takes_the_first_of_several",
    "ps_mirror_command/all_items_stay",
    "ps_mirror_command/fault_told_as_refused_opening",
    "ps_mirror_command/long_told_as_a_fault",
    "ps_mirror_command/source_given_back_under_another_name",
    "ps_names/reply_from_its_sender",
    "ps_nodes/configuration_stays",
    "ps_nodes/made_where_it_stands",
    "ps_notice_numbers/handed_is_what_was_made",
    "ps_notices/addresses_are_not_merged",
    "ps_notices/id_is_not_the_number",
    "ps_notices/one_counter_for_all_addresses",
    "ps_outbox/always_in_order",
    "ps_outbox/ready_at_another_host=ps_outbox::asks::ReadyAtAskAddress::passes",
    "ps_outbox/shown_before_it_is_durable",
    "ps_owner/anyone_at_accounts",
    "ps_owner/approved_unasked",
    "ps_owner/denial_told_as_memory",
    "ps_presence/clears_one_of_a_host",
    "ps_presence/keeps_the_newest_row",
    "ps_publish/item_before_the_right",
    "ps_publish/options_before_access",
    "ps_publish/owners_alone_publish",
    "ps_record/added_entry_is_left_out",
    "ps_record/any_print",
    "ps_record/no_room_told_for_want_of_memory",
    "ps_record/open_gate",
    "ps_rehearse/errors_of_one_stream_alone",
    "ps_rehearse/numbers_of_another_seed",
    "ps_rehearse/others_counted_as_changes",
    "ps_rehearse_lines/hosts_exchanged",
    "ps_rehearse_lines/last_stanza_not_dealt",
    "ps_rehearse_lines/replies_counted_as_notices",
    "ps_request/other_address_forbidden=ps_request::entity::subscribe",
    "ps_request_parts/agreeing_is_enough",
    "ps_request_parts/any_hash_is_verified",
    "ps_roster/contact_of_any_account=ps_roster::asks::ContactOfAskRosterRow::passes",
    "ps_rows/a_changed_row_is_lost",
    "ps_rows/packing_keeps_the_empty_places",
    "ps_secrecy_step/each_says_the_others",
    "ps_secrecy_step/other_entry_is_not_taken",
    "ps_secrecy_step/refused_in_one_refused_in_both",
    "ps_serve/a_second_boot",
    "ps_serve/always_open_fault",
    "ps_serve/always_store_damaged",
    "ps_serve/always_stream_fault",
    "ps_serve/always_usage",
    "ps_serve/changes_are_full_at_a_hundred_bytes=ps_serve::storing::serve_store",
    "ps_serve/damaged_store_is_written_over",
    "ps_serve/store_full_before_a_line",
    "ps_serve/store_is_spoiled_without_memory",
    "ps_status/all_but_the_first_left_out",
    "ps_status/code_of_another_status",
    "ps_status/failed_report_of_lines_hidden",
    "ps_status/lines_told_in_reverse",
    "ps_status/nothing_reported",
    "ps_status/offset_of_a_record_left_out",
    "ps_streams/closed_hall_told_as_memory",
    "ps_streams/ends_while_a_reader_runs",
    "ps_streams/full_store_told_as_memory",
    "ps_streams/gone_before_the_lines",
    "ps_streams/gone_is_not_said",
    "ps_streams/line_without_room_is_dropped",
    "ps_streams/notice_is_not_recorded",
    "ps_streams/notice_is_recorded_and_not_written",
    "ps_streams/read_fault_told_as_memory",
    "ps_streams/refusal_taken_as_the_end",
    "ps_streams/refused_line_told_as_memory",
    "ps_streams/stop_of_the_lines_told_as_memory",
    "ps_streams/waits_for_room_before_it_flushes",
    "ps_streams/write_fault_told_as_memory",
    "ps_subs/pending_is_subscribed=ps_subs::asks::is_subscribed",
    "ps_turn/draws_two_tickets",
    "ps_turn/gives_the_opening_value",
    "ps_turn/leaves_with_no_count",
    "ps_turn/serves_another_first",
    "ps_twin/gives_into_the_other_slot",
    "ps_twin/gives_the_opening_value",
    "ps_twin/raises_no_firm_word",
    "ps_twin/waits_in_the_other_line",
    "ps_twin_tests/counts_on_more_than_is_firm",
    "ps_types/bare_keeps_resource",
    "ps_types/child_of_any_namespace",
    "ps_wire/line_held_where_none_is",
    "ps_wire/other_member",
    "ps_workers/a_change_of_another_host",
    "ps_workers/end_of_a_reader_not_told",
    "ps_workers/failed_source_told_as_read",
    "ps_workers/full_told_as_memory",
    "ps_workers/last_frame_left_out",
    "ps_workers/last_frame_longer_than_it_is",
    "ps_workers/passes_of_a_host_swapped",
    "ps_workers/unread_source_told_as_read",
    "pubsubd/every_status_is_done",
    "pubsubd/program_name_is_a_word",
    "pubsubd/words_are_not_run",
]


def load():
    """Returns the toolchain's `rt` as a module."""
    path = os.path.realpath(shutil.which("rt") or "/opt/rattle/bin/rt")
    loader = importlib.machinery.SourceFileLoader("rtmain", path)
    spec = importlib.util.spec_from_loader("rtmain", loader)
    made = importlib.util.module_from_spec(spec)
    sys.modules["rtmain"] = made
    sys.dont_write_bytecode = True
    loader.exec_module(made)
    return made


def file_of(name):
    """Returns the file of an edit, which is named by its crate and itself."""
    crate, _, edit = name.removesuffix(".edit").partition("/")
    places = [f"{HERE}/{crate}/{edit}.edit", f"{ROOT}/crates/{crate}/must-fail/{edit}.edit"]
    return crate, next((it for it in places if os.path.isfile(it)), None)


def functions_of(folder, edit):
    """Returns the functions that an edit changes."""
    found, text = [], ""
    with open(edit, encoding="utf-8") as lines:
        for line in lines:
            if line.startswith("file: "):
                with open(f"{folder}/{line[6:].strip()}", encoding="utf-8") as file:
                    text = file.read()
            elif line.startswith("old: "):
                before = text[: text.find(line[5:].rstrip("\n")) + len(line)]
                found += re.findall(r"(?m)^\s*(?:pub(?:\([a-z]+\))?\s+)?fn\s+(\w+)", before)[-1:]
    return list(dict.fromkeys(found))


class Edit:
    """An edit of a crate: its name, the texts that it makes, and the functions that it changes. Or why it can't be tried."""

    def __init__(self, rt, crates, name):
        self.name, _, function = name.partition("=")
        crate, file = file_of(self.name)
        self.crate, self.said, self.is_refused = crates.get(crate), None, False
        if self.crate is None or not file:
            self.said = "no such edit"
            return
        lacking = [it.name for it in self.crate.below() if not os.path.isdir(it.rlib)]
        if lacking:
            self.said = f"{lacking[0]} isn't built: run rt ci or bench/gate/keep.py first"
            return
        with open(file, encoding="utf-8") as text:
            self.text = text.read()
        self.functions = [function] if function else functions_of(self.crate.folder, file)
        _, self.said = rt.edited(self.text, self.crate.folder)

    def plain(self):
        """The names of the functions, without what they stand in."""
        return {it.rpartition("::")[2] for it in self.functions}


def calls_in(folder):
    """Returns for each name of a function of a crate the names of those of its functions that those of that name may call."""
    bodies = {}
    for root, _, files in os.walk(f"{folder}/src"):
        for file in files:
            with open(f"{root}/{file}", encoding="utf-8") as text:
                parts = re.split(r"(?m)^\s*(?:pub(?:\([a-z]+\))?\s+)?fn\s+(\w+)", text.read())
            for name, body in zip(parts[1::2], parts[2::2]):
                bodies[name] = bodies.get(name, "") + body
    return {name: {it for it in re.findall(r"\b(\w+)\b", body) if it in bodies} for name, body in bodies.items()}


def reached(calls, names):
    """Returns the names that these lead to."""
    found, more = set(), set(names)
    while more:
        more = {it for name in more for it in calls.get(name, ())} - found
        found |= more
    return found


def groups_of(edits):
    """Returns the edits of one crate in groups: no edit of a group leads to what another one of it changes, and no two change one file's text in one place."""
    calls = calls_in(edits[0].crate.folder)
    groups = []
    for edit in edits:
        led = reached(calls, edit.plain()) | edit.plain()
        for group in groups:
            if all(not led & other.plain() and not (reached(calls, other.plain()) & edit.plain()) for other in group):
                group.append(edit)
                break
        else:
            groups.append([edit])
    return groups


def texts_of(rt, group):
    """Returns the texts that all edits of a group make, one applied after the other, or none where they don't fit together."""
    return rt.edited("\n".join(it.text for it in group), group[0].crate.folder)[0]


def is_open(lines, function):
    """Whether the prover said of the function that it isn't proved: True, False, or None where it said nothing of it."""
    said = [it for it in lines if re.match(rf"fn (\S+::)?{re.escape(function)}: ", it)]
    if not said:
        return None
    return any(re.search(r": (not proved|no proof)", it) for it in said)


def tries(rt, group, kept):
    """Tries the edits of a group by one check, and each alone where that tells too little."""
    texts = texts_of(rt, group)
    lines, status = [], None
    if texts is not None:
        functions = [it for edit in group for it in edit.functions]
        flags = ["--jobs", "1", *(word for it in functions for word in ("--only", it))]
        ran = rt.checked(group[0].crate, texts, flags, kept)
        lines, status = ran.stdout.split("\n"), ran.returncode
    strange = next((it for it in lines if "error[" in it), "")
    found = {edit: [is_open(lines, it) for it in edit.functions] for edit in group}
    tells = status in (0, 1) and not strange and all(it is not None for opens in found.values() for it in opens)
    if not tells and len(group) > 1:
        for edit in group:
            tries(rt, [edit], kept)
        return
    for edit in group:
        edit.is_refused = tells and any(found[edit])
        at = ", ".join(edit.functions)
        edit.said = f"refused at {at}" if edit.is_refused else strange or f"NOT REFUSED at {at}: {' '.join(lines[-3:])}"[:300]


def try_crate(rt, edits):
    """Tries the edits of one crate, over one another's work."""
    began = time.monotonic()
    groups = groups_of(edits)
    with tempfile.TemporaryDirectory(prefix="edits-") as kept:
        for group in groups:
            tries(rt, group, kept)
    told = [f"{edits[0].crate.name}: {len(edits)} edits by {len(groups)} checks in {time.monotonic() - began:.0f} s"]
    print("\n".join(told + [f"{edit.name}: {edit.said}" for edit in edits]), flush=True)


def main(names):
    rt = load()
    rt.rtlib.stop, rt.rtlib.Crate, rt.Crate.cuts_libraries = rt.stop, rt.Crate, True
    os.chdir(ROOT)
    rt.Crate.allowed = rt.handles_of(ROOT)
    rt.rtlib.guarded()
    crates = {it.name: it for it in rt.rtlib.crates_below(ROOT)}
    edits = [Edit(rt, crates, it) for it in names or TRIED]
    by_crate = {}
    for edit in edits:
        if edit.said:
            print(f"{edit.name}: {edit.said}", flush=True)
        else:
            by_crate.setdefault(edit.crate.name, []).append(edit)
    # Those with most below them take longest, and begin first.
    order = sorted(by_crate.values(), key=lambda it: -len(it[0].crate.below()))
    with ThreadPoolExecutor(LANES) as pool:
        list(pool.map(lambda it: try_crate(rt, it), order))
    refused = sum(it.is_refused for it in edits)
    print(f"{len(edits)} edits, {refused} refused")
    return 0 if edits and refused == len(edits) else 1


if __name__ == "__main__":
    sys.exit(main(sys.argv[1:]))
