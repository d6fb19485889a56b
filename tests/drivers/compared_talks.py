"""What was said to many clients at once, compared with the plain model: the batches in the order of their receipts, each reply at the
version that it names."""
import collections
import json
import pathlib
import sys

sys.path[:0] = [str(pathlib.Path(__file__).resolve().parents[1] / folder) for folder in ("runs",)]
from checks import check, tell
from random_session import SolvedSession
from write_stored_runs import text_of



def compare(title, talks, audit, hands, edition=1):
    """Replays the batches in the order of their receipts, and compares all that was said."""
    said = [entry for talk in talks for entry in talk]
    accepted, refused, looks = [], collections.defaultdict(list), collections.defaultdict(list)
    for name, message, answer in said:
        heard = json.loads(answer)
        if "do" in message and heard.get("last"):
            accepted.append((heard["first"], heard["last"], name, message, answer))
        elif "do" in message:
            refused[heard.get("version")].append((name, message, answer))
        else:
            looks[heard.get("version")].append((name, message, answer))
    accepted += [(row[0], row[0], None, row, None) for row in audit if row[1] is None]
    accepted.sort(key=lambda batch: batch[:2])
    check_order(title, accepted, len(audit))
    check_connections(title, talks)
    model, published, wrong = SolvedSession(hands, edition), [0], collections.defaultdict(list)
    counts = collections.Counter()
    compare_version(model, refused.pop(0, []), looks.pop(0, []), wrong, counts)
    for first, last, name, message, answer in accepted:
        if name is None:
            table, board = map(int, message[3].split("/"))
            model.analyse(table, board)
        else:
            compare_batch(model, name, message, answer, wrong, counts)
        if wrong["batches"]:
            break
        published.append(model.version)
        compare_version(model, refused.pop(last, []), looks.pop(last, []), wrong, counts)
    check(f"{title}: each batch has the answers of the model ({counts['batches']} batches)", [], wrong["batches"])
    other = next(((row, own) for row, own in zip(audit, model.journal) if row != own), None)
    check(f"{title}: the audit tells the commands of the receipts, and what the solver entered", (len(audit), None), (len(model.journal), other))
    check(f"{title}: each reply is the model's at its version, byte for byte ({counts['replies']} replies)", [], wrong["replies"][:3])
    strange = [entry for version in [*looks, *refused] for entry in [*looks[version], *refused[version]]]
    check(f"{title}: each version that is named is one at which a batch had ended", [], strange[:3])
    check(f"{title}: each message was compared", len(said), counts["batches"] + counts["replies"])
    tell_counts(said, audit, published, counts)


def compare_batch(model, name, message, answer, wrong, counts):
    before = model.version
    wanted = text_of(model.answer(name, message))
    counts["batches"] += 1
    if wanted != answer:
        wrong["batches"].append((f"after {before}", name, message, "wanted", wanted, "got", answer))


def compare_version(model, refused, looks, wrong, counts):
    """What was said at the version at which the model is now."""
    for name, message, answer in refused:
        compare_batch(model, name, message, answer, wrong, counts)
    for name, message, answer in looks:
        wanted = text_of(model.answer(name, message))
        counts["replies"] += 1
        counts["not empty"] += '"error"' not in answer and '"denied"' not in answer
        if wanted != answer:
            wrong["replies"].append((f"at {model.version}", name, message, "wanted", wanted, "got", answer))


def check_order(title, accepted, entries):
    """The numbers of the batches lie apart, and leave none out."""
    gaps, after = [], 0
    for first, last, name, message, answer in accepted:
        if first != after + 1:
            gaps.append((after, first, last, name, message, answer))
        if answer and last - first + 1 != json.loads(answer)["answers"].count("ok"):
            gaps.append(("as many numbers as commands that were accepted", name, message, answer))
        after = last
    check(f"{title}: the numbers of the {len(accepted)} batches lie apart and leave none out, from 1 to {entries}",
          ([], entries), (gaps[:3], after))


def check_connections(title, talks):
    """What a client sees of the order of versions on its own connection."""
    back, below_receipt, since, errors = [], [], [], []
    for talk in talks:
        newest, receipt = 0, 0
        for entry in talk:
            _, message, answer = entry
            heard = json.loads(answer)
            version = heard.get("version", newest)
            back += [entry] * (version < newest)
            below_receipt += [entry] * (version < receipt)
            error, is_behind = heard.get("error"), version < message.get("since", 0)
            since += [entry] * (error not in ("NoSuchBoard", "NoSuchCell") and is_behind != (error == "Behind"))
            errors += [entry] * (error not in (None, "Behind", "NoSuchBoard", "NoSuchCell"))
            newest, receipt = max(newest, version), version if "do" in message else receipt
    check(f"{title}: no version on a connection is lower than one before it", [], back[:3])
    check(f"{title}: no reply is below the receipt that came before it", [], below_receipt[:3])
    check(f"{title}: a reply is of the version that `since` asks for, or Behind where that isn't there yet", [], since[:3])
    check(f"{title}: no NoEntry, no OutOfMemory and no other error", [], errors[:3])


def tell_counts(said, audit, published, counts):
    heard = [json.loads(answer) for _, _, answer in said]
    answers = collections.Counter(answer.split("(")[0] for one in heard for answer in one.get("answers", []))
    asked = collections.Counter(message.get("ask", "audit") for _, message, _ in said if "do" not in message)
    tell("queries: " + ", ".join(f"{word} {count}" for word, count in sorted(asked.items())))
    tell(f"replies: {counts['not empty']} that show something, {sum('denied' in one for one in heard)} denials by rules "
         f"{sorted({one['denied']['rule'] for one in heard if 'denied' in one})}, "
         + ", ".join(f"{count} {word}" for word, count in collections.Counter(one["error"] for one in heard if "error" in one).items()))
    tell(f"versions: {len(published)} published, up to {published[-1]}; {len({one.get('version') for one in heard})} of them were named; "
         f"{sum(row[1] is None for row in audit)} entries by the solver")
    tell("commands: " + ", ".join(f"{word} {count}" for word, count in answers.most_common()))
