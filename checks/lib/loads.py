"""What crates/cache_load prints of a load, and when that is right."""
import re


def report_of(printed, readers, writers, gets, parts=1):
    """What the program printed of such a load, by name; or None where it didn't print all its lines, or others beside them."""
    each = gets // readers
    lines = [
        f"{readers} readers, {writers} writers and one that tends",
        *([f"parts: {parts}"] if parts > 1 else []),
        f"gets: {each * readers}",
        rf"of keys that are always there: {(each + 1) // 2 * readers}, of which (?P<missed>\d+) found nothing",
        r"wrong values: (?P<wrong>\d+)",
        r"older values: (?P<older>\d+)",
        r"puts without room: (?P<refused>\d+)",
        r"keys evicted that stay: (?P<evicted>\d+)",
        "sums of the statistics: (?P<sums>true|false)",
    ]
    found = re.fullmatch("\n".join(lines) + "\n", printed)
    return found and {name: said if name == "sums" else int(said) for name, said in found.groupdict().items()}


def is_right(report, status):
    """Whether the program printed what it has to, and ended with the status 0. Where keys that stay were evicted gets may have found nothing, and it
    ends with 1."""
    if not report or report["wrong"] or report["older"] or report["refused"] or report["sums"] != "true":
        return False
    return (status, report["missed"], report["evicted"]) == (0, 0, 0) or (status == 1 and report["evicted"] > 0)
