"""What a folder has of the files that a replay reads."""
import os


def instead(folder, name):
    """What a folder has in place of a file that is missing."""
    stem = name.partition(".")[0]
    like = [other for other in sorted(os.listdir(folder)) if other.lower().partition(".")[0] == stem and other != name]
    if not like:
        return ""
    reason = "capitals count" if like[0].lower() == name else "the name is just %s" % name
    return "; there is %s: rename it to %s, %s" % (like[0], name, reason)


def absent(folder, name, otherwise=""):
    """In words: why a file is not there, so that a replay takes it for an empty one; "" if it is there. `otherwise` is said
    where nothing like it is there."""
    path = os.path.join(folder, name)
    if os.path.isfile(path):
        return ""
    if os.path.isdir(path):
        return "a folder, where a file is due"
    return "missing" + (instead(folder, name) or otherwise)
