"""What is refused, in plain words. Bars are counted from 1 here, as in the score; in the lines of a script they count from 0."""

REFUSALS = {
    "Line": "This is no edit that the program knows, or a number in it is out of its range.",
    "NoStep": "There is nothing to be taken back, or to be made again.",
    "NoVoice": "No voice has channel {}: only channels that have a note in the file are voices.",
    "BadSpan": "The note would end before it begins.",
    "NoNote": "There is no such note.",
    "SameNote": "Another note of this voice and key begins there already.",
    "PastEnd": "The note would not lie before the last barline, which is at tick {}. Add a bar first.",
    "BarlineOrder": "A barline stays between its neighbours, after tick {} and before tick {}.",
    "NoteOutside": "A note would lie outside the last barline: the one that begins at tick {}.",
    "NotEmpty": "The last bar is not empty: a note begins there, or is held into it, at tick {}.",
    "OneBar": "The only bar is not dropped.",
    "Limit": "That is more than the program takes: the limit of {} is reached, at {}.",
    "Memory": "There was not enough memory, and nothing is changed. Try again when other programs have ended.",
}
STALE = "The piece was changed meanwhile, in another window or by follow. It is shown as it is now; nothing was changed by this."
NO_EDIT = "This is no line of an edit script."


def refusal(refused):
    """Why an edit was refused."""
    if refused.name == "NoBar":
        return f"There is no bar {refused.about[0] + 1} for that; the first barline does not move."
    if refused.name == "NoDerivation":
        channel, bar = refused.about
        return f"The grammar has no rhythm for that: from bar {bar + 1} on the voice of channel {channel} could not go on."
    return REFUSALS.get(refused.name, str(refused)).format(*refused.about)


def ending(ended):
    """That the session has ended, and why."""
    return f"The program ended, and was opened again with the steps before this one ({ended})."


def unwritten(why):
    """That there is no such form of the piece."""
    return f"The program has not written this ({why})."
