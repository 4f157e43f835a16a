"""What the program says of a refusal, on two lines: `jbench: refusal 8 BadBlock`, and what it comes of and what to do."""

FIELD = "a field of the superblock is not taken: jbench show LOG says which, and what is wanted"
DAMAGED = "keep a copy of both files, and see what jbench recover LOG HOME --before-damage --dry-run says"
ADVICE = {
    "Memory": "memory was refused, or a thread, and nothing is wrong with the files: raise ulimit -v or -u, and call it again",
    "Device": "a file could not be read, written or synced: see to its disk first (df, dmesg), and then call jbench recover LOG HOME",
    "Aborted": "a file failed in a call before: see to its disk first, and then call jbench recover LOG HOME",
    "NoCredit": "the handle has no credit left for a further block: start it with more of them, or extend it",
    "Full": "open handles have the credits that are left: stop some of them and commit, and then ask again",
    "TooMany": "no transaction of this log takes so many blocks: use several handles, or format a longer log",
    "NotRunning": "the handle's transaction takes nothing more: stop the handle, and start another one",
    "BadBlock": "the home area has no such block: jbench check SCRIPT and the length of HOME say which there are",
    "NotDirect": "the log may still bring home an older copy of that block: write it by a handle, or revoke it and commit first",
    "SequenceEnd": "no transaction number is left: where jbench show LOG has s_start 0 the log is clean, and jbench format LOG HOME --keep-home makes a new one beside the same home",
    "NeedSpace": 'the log has no room left for the transaction: ["check"] before its commit brings home what is committed, and makes room; apply --make-room does both',
    "Revoked": "the block was revoked, and holds nothing to be read: write it first, or read it once the revoke is committed and checked",
    "BadMagic": "no log stands there: jbench show LOG says what does, and what to do then",
    "BadType": FIELD,
    "BadBlockSize": FIELD,
    "BadLength": "the file is too short for its log, or that says a length which no log has",
    "BadFirst": FIELD,
    "BadFeature": "the log has features that are not taken: jbench show LOG names each, and what to do about it",
    "BadStart": FIELD,
    "ErrnoSet": "its file system noted an error in the log: check that with fsck, which takes the note away",
    "Ahead": f"that block has a number which the log can't have yet: {DAMAGED}",
    "Damage": f"that block is malformed: {DAMAGED}",
    "AlreadyWide": "the log has block numbers of 64 bits already, so there is nothing to do",
    "NotEmpty": "the log is not clean: call jbench recover LOG HOME first",
}


def refusal_lines(refusal):
    """What stands on standard error of a refusal, as `8 BadBlock` or `22 Damage 7`."""
    return f"jbench: refusal {refusal}\n  {ADVICE[refusal.split()[1]]}\n"
