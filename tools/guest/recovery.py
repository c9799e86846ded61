"""What a Linux host makes of stalls, resets and cuts, with one R2T of a WRITE open or with several: all that it wrote is there."""

import time

from guest.attached import (ABORT_TASK, COMPLETE, LOGIN, LONG, LUN_RESET, SIZE, STEP, TARGET_WARM_RESET, is_same,
                            lays_it_onto_the_disk, makes_an_image, waits_until)
from initiators.open_r2ts import Watch
from running.checks import Skipped, must


def begins_to_write(lab, seed, step=STEP):
    """The guest writes an image, and some of its WRITEs have passed. Gives what had passed before."""
    makes_an_image(lab, seed)
    command, mark = lays_it_onto_the_disk(lab, step=step), lab.mark()
    lab.guest.says(f"{command} 2>/tmp/said &")
    waits_until(lambda: len(lab.writes(mark)) >= 5, "it did not begin to write")
    must(len(lab.writes(mark)) < SIZE // step // 2, "it is nearly at its end already")
    return mark


def ends_its_write(lab):
    lab.guest.says("wait $! || { cat /tmp/said; false; }", LONG)
    is_same(lab)


def goes_on_after_a_stall(lab):
    mark = begins_to_write(lab, 10)
    lab.relay.stall()
    time.sleep(3)
    lab.relay.go_on()
    ends_its_write(lab)
    must(not lab.sent(mark, LOGIN), "it logged in again")


def logs_in_again_where_nothing_is_answered(lab):
    mark = begins_to_write(lab, 11)
    lab.relay.stall()
    ends_its_write(lab)
    lab.relay.go_on()
    must(lab.sent(mark, LOGIN), "it did not log in again")


def writes_on_after_its_connection_was_cut(lab):
    mark = begins_to_write(lab, 12)
    lab.relay.cut()
    ends_its_write(lab)
    must(lab.sent(mark, LOGIN), "it did not log in again")


def must_be_complete(functions, code):
    """The function was asked for and done."""
    responses = [response for function, response in functions if function == code]
    must(responses, ("it was not asked for", functions))
    must(responses[0] == COMPLETE, f"function {code} is answered {responses[0]}")


def recovers_a_write_whose_data_is_not_asked_for(lab):
    """The R2T of a WRITE is lost: the guest gives the command up after 5 seconds, aborts it and sends it again."""
    disk, mark = lab.disk(), lab.mark()
    makes_an_image(lab, 13)
    lab.guest.says(f"echo 5 > /sys/block/{disk}/device/timeout")
    lab.loser.left = 1
    lab.guest.says(lays_it_onto_the_disk(lab), LONG)
    must(lab.loser.left == 0, "no R2T was lost")
    is_same(lab)
    lab.guest.says(f"echo 30 > /sys/block/{lab.disk()}/device/timeout")
    must_be_complete(lab.functions(mark), ABORT_TASK)
    must(not lab.sent(mark, LOGIN), "it logged in again")


def takes_a_reset(option, code):
    def check(lab):
        mark = lab.mark()
        status, said = lab.guest.run(f"sg_reset --no-esc {option} /dev/{lab.disk()}")
        must_be_complete(lab.functions(mark), code)
        must(status == 0, (status, said))
        makes_an_image(lab, code)
        lab.guest.says(lays_it_onto_the_disk(lab), LONG)
        is_same(lab)
    check.__name__ = f"takes_a_reset{option.replace('--', '_of_a_')}"
    return check


def resets_while_it_writes(lab):
    """Linux sends no data after a reset (FastAbort), so one that waits for the data of an R2T is not answered.
    Then the guest logs in again."""
    mark = begins_to_write(lab, 14)
    status, said = lab.guest.run(f"sg_reset --no-esc --device /dev/{lab.disk()}", LONG)
    ends_its_write(lab)
    responses = [response for function, response in lab.functions(mark) if function == LUN_RESET]
    must(responses, "it was not asked for")
    if responses[0] is None:
        must(lab.sent(mark, LOGIN), "it is not answered, and there was no login")
        raise Skipped("Task Management: a reset waits for data that Linux does not send after it")
    must(responses[0] == COMPLETE and status == 0, (responses, status, said))


def logs_in_anew(lab, name, value):
    """The guest logs out, and in again with another value of a setting."""
    lab.node("--logout")
    lab.guest.waits_for("! ls -d /sys/block/sd*")
    lab.node(f"-o update -n node.session.iscsi.{name} -v {value}")
    lab.node("--login")
    lab.guest.waits_for("test -b /dev/$(basename /sys/block/sd*) -a -c /dev/nst0")


def resets_while_it_sends_what_was_asked_for(lab):
    """With FastAbort = No Linux sends the data of its R2Ts after a reset, which is then answered."""
    logs_in_anew(lab, "FastAbort", "No")
    for seed in range(15, 20):
        mark = begins_to_write(lab, seed)
        status, said = lab.guest.run(f"sg_reset --no-esc --device /dev/{lab.disk()}", LONG)
        ends_its_write(lab)
        must_be_complete(lab.functions(mark), LUN_RESET)
        must(status == 0, (status, said))
        must(not lab.sent(mark, LOGIN), "it logged in again")


# ---- several R2Ts open at a time


def watched(lab, mark, offer):
    """What was seen of R2Ts since then, if so many were offered."""
    watch = Watch(offer)
    for event in lab.relay.events[mark:]:
        watch.see(event)
    return watch


def writes_with_r2ts_open(offer):
    def check(lab):
        logs_in_anew(lab, "MaxOutstandingR2T", offer)
        mark = lab.mark()
        makes_an_image(lab, offer)
        lab.guest.says(lays_it_onto_the_disk(lab), LONG)
        is_same(lab)
        watch = watched(lab, mark, offer)
        must(watch.most == watch.enough, f"{watch.most} R2Ts were open")
    check.__name__ = f"writes_where_{offer}_r2ts_are_offered"
    return check


def goes_on_after_a_cut_with_r2ts_open(lab):
    mark = begins_to_write(lab, 31, 1 << 20)
    lab.relay.cut()
    ends_its_write(lab)
    must(lab.sent(mark, LOGIN), "it did not log in again")


def resets_with_r2ts_open(lab):
    """With FastAbort = No. Four R2Ts are held back until a reset has passed, which then waits for the data of all."""
    mark, watch = begins_to_write(lab, 32, 1 << 20), Watch(8, lab.relay.stall)
    tell, lab.relay.tell = lab.relay.tell, watch.see
    waits_until(lambda: watch.most == watch.enough, "four R2Ts were not open")
    lab.guest.says(f"writing=$!; sg_reset --no-esc --device /dev/{lab.disk()} & resetting=$!")
    waits_until(lambda: watch.at_function is not None, "there was no reset")
    lab.relay.go_on()
    lab.guest.says("wait $resetting && wait $writing", LONG)
    lab.relay.tell = tell
    is_same(lab)
    must_be_complete(lab.functions(mark), LUN_RESET)
    must(not lab.sent(mark, LOGIN), "it logged in again")
    must((watch.at_function, watch.at_answer) == (watch.enough, 0), (watch.at_function, watch.at_answer))


CHECKS = [
    goes_on_after_a_stall,
    logs_in_again_where_nothing_is_answered,
    writes_on_after_its_connection_was_cut,
    recovers_a_write_whose_data_is_not_asked_for,
    takes_a_reset("--device", LUN_RESET),
    takes_a_reset("--target", TARGET_WARM_RESET),
    resets_while_it_writes,
    resets_while_it_sends_what_was_asked_for,
    writes_with_r2ts_open(4),
    writes_with_r2ts_open(8),
    goes_on_after_a_cut_with_r2ts_open,
    resets_with_r2ts_open,
]
