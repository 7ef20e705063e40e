"""What may be executed at a marked place of a text (`Text` of following.py)."""
import nc_host as nc
from following import Text
from reading import decoded, is_indirect, target


def admits(text, at, masked=nc.UNMARKED):
    """Some mark stands for being at an address with this register masked, or with none; or the address is a bundle start below the region.
    A register is named by the mark of a transfer on it, as in `Instruction.masks`.
    """
    if at < nc.START:
        return at % nc.BUNDLE == 0
    return text.mark(at) != nc.UNMARKED and text.mark(at) in (nc.PLAIN, masked)


def leads_well(text, at, instruction):
    """Each step of the instruction leads to a state that a mark stands for, or to a bundle start below the region. An indirect transfer
    goes to a bundle start, and each of them has to be plain.
    """
    behind, goal = at + instruction.length, target(at, instruction)
    if instruction.flow == nc.FLOW_NEXT:
        return admits(text, behind, instruction.masks)
    if instruction.flow == nc.FLOW_BRANCH:
        return admits(text, behind) and admits(text, goal)
    return instruction.flow not in (nc.FLOW_JUMP, nc.FLOW_CALL) or admits(text, goal)


def is_right(text: Text, at: int, instruction: nc.Answer) -> bool:
    """The instruction is safe in each state for which the mark at its address stands, and leads only to such states."""
    if is_indirect(instruction) and text.mark(at) != nc.MASKED + instruction.reg:
        return False
    return leads_well(text, at, instruction)


def is_good(text, at):
    """What stands at an address, up to its bundle's end, is an instruction that is right there."""
    instruction = decoded(text.rest_of_bundle(at))
    return instruction.fault == nc.OK and is_right(text, at, instruction)


def faults(text: Text) -> int:
    """All marks walked once: how many marked places are wrong, and one more where a bundle start isn't plain."""
    places = range(nc.START, text.limit)
    wrong = [at for at in places if text.mark(at) != nc.UNMARKED and not is_good(text, at)]
    starts_are_plain = all(text.mark(at) == nc.PLAIN for at in places[:: nc.BUNDLE])
    return len(wrong) if starts_are_plain else len(wrong) + 1
