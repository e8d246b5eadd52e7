"""The text of each hint and warning.

The first line says what is wrong, and a second one what would be right. Words in braces are filled in.
"""

READS_INPUT = "reads a script from standard input, up to Ctrl-D; --help lists the options"
CANNOT_WRITE = "51 cannot write the report"
MEANT = "did you mean `{likely}`?"

# What the system refuses.
UNREAD_FILE = "{name}: {reason}"
UNREAD_INPUT = "standard input cannot be read: name a file that has the script"
UNWRITTEN = ("standard output did not take the whole report\n"
             "see that its disk has room, and that the program which reads it still runs")
TOO_LONG = "a script has at most {most} bytes\nleave lines out; comments and empty lines count too"

# A line that is no line of a script.
NOT_UTF8 = "the line is not UTF-8\nsave the script as UTF-8; a name has only the letters a to z and 0 to 9"
BYTE_ORDER_MARK = "the line begins with a byte order mark\nsave the script as UTF-8 without a byte order mark"
CARRIAGE_RETURN = "the line has a carriage return\nend each line by a line feed alone"
_SPACING = "put one space between words, and none at the ends"
TAB = f"the line has a tab\n{_SPACING}"
COMMENT_BEHIND = "a comment follows the words of the line\nput the comment on a line of its own"
SPACES = f"the line has two spaces side by side, or one at an end\n{_SPACING}"
_VERBS = "a line begins with {verbs}"
UNKNOWN_VERB = "no line begins with {word}\n" + _VERBS
MISSPELLED_VERB = f"no line begins with {{word}}\n{MEANT} {_VERBS.capitalize()}"
OTHER_FORM = "{follow} `{verb}` on its line\nwrite `{form}`"
SECOND_START = "line {line} is `start` already\na script has one line `start`"
GROUP_NAME = "{word} is no name of a group\na group's name is 1 to 10 letters and digits"
SLOT = "{word} is no slot\na file has the slots 0, 1, 2 and 3; without one all its blocks are overwritten"

# A path that is none.
_PATH_FORM = "\na path is one to four times a slash and a name of 1 to 10 of a to z and 0 to 9"
ROOT = "{path} is the root directory, which is always there" + _PATH_FORM
NO_SLASH = "{path} does not begin with a slash" + _PATH_FORM
EMPTY_NAME = "{path} has an empty name" + _PATH_FORM
BAD_LETTER = "the name {name} in {path} has a letter other than a to z and 0 to 9" + _PATH_FORM
LONG_NAME = "the name {name} in {path} has {letters} letters" + _PATH_FORM
MANY_NAMES = "{path} has more than four names" + _PATH_FORM

# Where `start` stands, and how long a script is.
NO_START = ("no line of the script is `start`\n"
            "the lines before `start` build the disk, and those after it are explored")
_BEFORE_START = "the line is before `start`\n"
ONLY_AFTER_START = _BEFORE_START + "put it after `start`; what is built before `start` is on the disk already"
GROUP_BEFORE_START = _BEFORE_START + "groups order what is traced, so they come after `start`"
TOO_MANY_SYNCS = ("`--enough --syncs` asks about at most 64 lines `sync` and `fsync`, and this is the next one\n"
                  "leave lines out, or ask about a part of the script")
TOO_MANY_PATCHES = ("a script makes at most 124 patches, and this line would make more\n"
                    "leave lines out, or move the first ones before `start`, where they build the disk")

# Groups.
POOL = ("a pool has only operations and the lines `sync`, `fsync` and `keep`\n"
        "leave the line out, or ask without `--search`")
NO_OPEN_GROUP = "no group is open at this line\na line `group NAME` opens a group, and `end` ends it"
_END_FIRST = "\nput a line `end` before this one"
OPEN_GROUP = "a group is open since line {line}" + _END_FIRST
OPEN_EARLIER_GROUP = "the earlier group is open since line {line}" + _END_FIRST
OPENED_GROUP = "line {line} opened this group already\na group is opened once; give this one another name"
SAME_GROUP = "the line names one group twice\nwrite `depend LATER EARLIER` with the names of two groups"
LATER_HAS_PATCHES = ("the later group was opened on line {line} and has patches already\n"
                     "write `depend` before the later group's first operation")
NO_EARLIER_GROUP = ("no line before this one opens the earlier group\n"
                    "write `depend LATER EARLIER` after the earlier group's `end`, before the later one's `group`")
EMPTY_GROUP = "line {line}: {text}: group {name} never gets a patch; {others}"
FULL_GROUPS = "the groups that do are {groups}"
NO_FULL_GROUP = "no group does"

# Operations.
MISSING = ("there is no {path} at this line\n"
           "`create` makes a file and `mkdir` a directory; put it before this line")
EMPTY_SLOT = ("{path} has no block in this slot\n"
              "`write` adds a block in the lowest free slot; without a slot all blocks are overwritten")
FILE_ON_THE_WAY = "{path} is a file\nonly a directory has names in it: make one by `mkdir`"
FILE_TO_REMOVE = "{path} is a file\n`unlink` removes a file"
SAME_PATHS = "both paths are {path}\nwrite the old path and then a new one"
SAME_FILE = ("both paths name the file of {path}\n"
             "a file takes the name of another file: take the name of another one")
TAKEN_BY_RENAME = "{path} is there already\n`replace` renames onto a name that is there"
TAKEN = "{path} is there already\ntake another name, or remove this one first"
_DIRECTORY = "{path} is a directory\n"
DIRECTORY_TO_UNLINK = _DIRECTORY + "`rmdir` removes a directory"
DIRECTORY_TO_CHANGE = _DIRECTORY + "only a file is overwritten, truncated or replaced"
DIRECTORY_TO_WRITE = _DIRECTORY + "only a file is written, linked or renamed"
NOT_EMPTY = "{path} is not empty\nremove what is in it first"
NO_INODE = ("all 16 inodes are in use at this line\n"
            "the disk has 16 inodes, the root's among them: unlink a file first")
DIRECTORY_FULL = ("the directory of {path} has 10 names already\n"
                  "a directory holds at most 10 names: take another directory")
FILE_FULL = "{path} has 4 blocks already\na file holds at most 4 blocks, and each `write` adds one"
LINKS_FULL = "{path} has 8 names already\na file has at most 8 names: unlink one first"

# The size of the disk, and the number of closed sets.
BAD_GEOMETRY = ("a journal of {journal} blocks needs a disk of at least {least}; this one has {blocks}\n"
                "--blocks {least} is enough, and a disk has at most {most}")
NO_BLOCK = "no block of the disk's {blocks} is free at this line\n{advice}"
JOURNAL_FULL = "the journal of {journal} blocks has no room for the transaction of this line\n{advice}"
NO_DISK = "no disk of up to {most} blocks is enough for this script: leave lines out"
LARGER_DISK = "{size} is enough for {what}"
ALL_LINES = "this script"
LINES_BEFORE = "the lines before line {line}, which is refused for another reason"
_TOO_MANY_SETS = "the script has {sets} closed sets, and the limit is {limit}\n"
_DECIDE = "`{command}` finds each fault without a limit"
SETS_WITHIN_LIMITS = _TOO_MANY_SETS + "--limit {sets} explores them all, and " + _DECIDE
SETS_BEYOND_LIMITS = _TOO_MANY_SETS + "that is more than --limit can ask for; " + _DECIDE

# The command line.
LAUNCHER_WORD = MEANT + " --prove and --proved come first, and --hints is followed by auto, always or never"
RULES_OF = "the rules of {module} are {rules}"
NO_RULES = "{module} has no rules"

# What has no effect, or another one than is likely to be meant.
NO_OPERATION = "no operation follows `start`, so there is nothing to explore"
IDLE_RULE = "--with {rule} orders no two patches of this script"
LACKING_RULE = IDLE_RULE + ", and never can: under {module} no operation has {part}"
REVERSED_RULE = LACKING_RULE + " before {later}"
EARLY_PROMISE = ("line {line}: {text}: nothing has waited for line {operation}, so an older crash breaks the promise; "
                 "wait by `sync` or `fsync`, then promise")
IDLE_FSYNC = "line {line}: {text} forces nothing: no patch before it is of this path"
IDLE_KEEP = "line {line}: {text}: no file of this path is ever there, so nothing is kept"
CHANGED_HOLD = ("line {line}: {text}: line {change} changes it, and no `spare {path}` stands in: "
                "`keep` also allows what comes later")
IDLE_SPARE = "line {line}: {text} spares nothing: no line before it promises {path} alone"
MADE_LATER = ("--strict asks about what is there before `start`, and not about what line {line} makes\n"
              "to ask about that, write `fsync PATH` and `keep PATH` behind it")
NOT_STRICT = "line {line}: {text}: files that a crash loses are looked for only with --strict"

# What a report leaves out.
LEFT_OUT = ("workloads that fail under all rules are left out here ({failing}); "
            "`{command}` shows the first of them for each kind of fault")
SMALLEST_CRASH = "the smallest crash of all is {set}, with fault {fault}"
CRASH_OF_LINES = "the crash {set} comes even if all lines wait; ask without --syncs for rules that exclude it"
EXCLUDING_RULES = "by --with, each of these rules excludes the crash {set}: {rules}"
NO_EXCLUDING_RULE = "no rule excludes the crash {set}: it has each patch that comes before one of its own"
