"""Words for lists and counts."""


def joined(words):
    words = [str(word) for word in words]
    return words[0] if len(words) == 1 else ", ".join(words[:-1]) + " and " + words[-1]


def plural(count, one):
    return "%d %s" % (count, one if count == 1 else one + "s")
