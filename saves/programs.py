"""The programs that were recorded, and how: what is there before, the command, and the recorder's options."""

import dataclasses

OLD = "printf 'hello\\nworld\\n' > f"


@dataclasses.dataclass(frozen=True)
class Program:
    """`before` is for the shell, `command` is recorded, and `about` says in a few words what the program does.

    `options` are the recorder's; `needs` is a command that must be there, and `keys` are typed on a terminal.
    """
    name: str
    about: str
    command: tuple
    before: str = OLD
    options: tuple = ()
    needs: str = ""
    keys: str = ""


def shell(text):
    return ("sh", "-c", text)


def python(text):
    return ("/usr/bin/python3", "-c", text)


PYTHON_REPLACE = """
import os, tempfile
number, name = tempfile.mkstemp(dir='.')
with open(number, 'w') as file:
    file.write('new')
    FORCE
os.replace(name, 'f')
"""
PYTHON_FORCE = "file.flush(); os.fsync(number)"
GIT = ("git init -q -b main . && git config user.name a && git config user.email a@b && "
       "git config core.logAllRefUpdates false && ")
TABLE = "sqlite3 f 'create table t(x); insert into t values(1);'"
UPDATE = ("sqlite3", "-init", "/dev/null", "f")
BACKUP = ("--spare", "f", "f~")
NANO_SAVES = "x\x0f\r\x18"  # A letter, Ctrl-O and Enter, Ctrl-X.
JOURNAL = ("--spare", "f", "f-journal")

PROGRAMS = [
    Program("sed", "`sed -i`: a new file, renamed over the old one", ("sed", "-i", "s/h/H/", "f")),
    Program("perl", "`perl -pi`: a new file, renamed over the old one", ("perl", "-pi", "-e", "s/h/H/", "f")),
    Program("perl-backup", "`perl -pi.bak`: with a backup", ("perl", "-pi.bak", "-e", "s/h/H/", "f"),
            options=("--spare", "f", "f.bak")),
    Program("vim", "vim as it comes: the old file becomes the backup `f~` until the new one is written and forced",
            ("vim", "-u", "NONE", "-i", "NONE", "-N", "-es", "-c", "%s/h/H/", "-c", "wq", "f"), options=BACKUP),
    Program("vim-copy", "vim with `backupcopy=yes`: the backup is a copy, and the file is written in place",
            ("vim", "-u", "NONE", "-i", "NONE", "-N", "-n", "-es", "-c", "set backupcopy=yes", "-c", "%s/h/H/", "-c",
             "wq", "f"), options=BACKUP),
    Program("vim-nofsync", "vim with `nofsync`",
            ("vim", "-u", "NONE", "-i", "NONE", "-N", "-n", "-es", "-c", "set nofsync", "-c", "%s/h/H/", "-c", "wq",
             "f"), options=BACKUP),
    Program("ed", "ed: the file is cut to nothing and written", ("sh", "-c", "printf 's/h/H/\\nw\\nq\\n' | ed -s f")),
    Program("nano", "nano: the file is cut to nothing, written and forced", ("nano", "-I", "f"), keys=NANO_SAVES),
    Program("nano-backup", "nano with `-B`: a backup `f~` is written and forced first", ("nano", "-I", "-B", "f"),
            options=BACKUP, keys=NANO_SAVES),
    Program("emacs", "emacs in batch mode: the old file becomes the backup `f~`",
            ("emacs", "-Q", "--batch", "f", "--eval",
             "(progn (setq create-lockfiles nil) (insert \"x\") (save-buffer))"),
            options=BACKUP, needs="emacs"),
    Program("emacs-precious", "emacs with `file-precious-flag`: a new file, renamed over the old one",
            ("emacs", "-Q", "--batch", "f", "--eval", "(progn (setq create-lockfiles nil make-backup-files nil "
             "file-precious-flag t) (insert \"x\") (save-buffer))"), needs="emacs"),
    Program("git-config", "`git config`: a lock file, renamed over the old one", ("git", "config", "a.b", "c"),
            before="git init -q -b main .", options=("--keep", ".git/config")),
    Program("git-commit", "`git commit`: objects, and a lock file that is renamed over the branch",
            ("git", "-c", "maintenance.auto=false", "commit", "-qm", "two"),
            before=GIT + "echo a > a && git add a && git commit -qm one && echo b >> a && git add a",
            options=("--keep", ".git/refs/heads/main", "--ignore", ".git/index*", "--ignore", ".git/COMMIT_EDITMSG",
                     "--ignore", ".git/HEAD.lock")),
    Program("git-commit-fsync", "`git commit` with `core.fsync=all`",
            ("git", "-c", "maintenance.auto=false", "-c", "core.fsync=all", "commit",
             "-qm", "two"),
            before=GIT + "echo a > a && git add a && git commit -qm one && echo b >> a && git add a",
            options=("--keep", ".git/refs/heads/main", "--ignore", ".git/index*", "--ignore", ".git/COMMIT_EDITMSG",
                     "--ignore", ".git/HEAD.lock")),
    Program("sqlite", "sqlite3: a rollback journal, `synchronous=normal`",
            UPDATE + ("pragma synchronous=normal; update t set x=x+1;",), before=TABLE, options=JOURNAL),
    Program("sqlite-off", "sqlite3 with `synchronous=off`",
            UPDATE + ("pragma synchronous=off; update t set x=x+1;",), before=TABLE, options=JOURNAL),
    Program("sqlite-full", "sqlite3 with `synchronous=full`",
            UPDATE + ("pragma synchronous=full; update t set x=x+1;",), before=TABLE, options=JOURNAL),
    Program("sqlite-wal", "sqlite3 with a write-ahead log",
            UPDATE + ("update t set x=x+1;",), before=TABLE[:-1] + " pragma journal_mode=wal;'",
            options=("--spare", "f", "f-wal", "--ignore", "f-shm")),
    Program("python-write", "python: `open(.., 'w')`, and no fsync", python("open('f', 'w').write('new')")),
    Program("python-replace", "python: a new file and `os.replace`, and no fsync",
            python(PYTHON_REPLACE.replace("FORCE", ""))),
    Program("python-replace-fsync", "python: a new file, `os.fsync` and `os.replace`",
            python(PYTHON_REPLACE.replace("FORCE", PYTHON_FORCE))),
    Program("shell", "a shell's `> f`", shell("echo new > f")),
    Program("shell-append", "a shell's `>> f`", shell("echo new >> f")),
    Program("shell-mv", "a shell's `> g && mv g f`", shell("echo new > g && mv g f")),
    Program("shell-sync", "a shell's `> g && sync g && mv g f`", shell("echo new > g && sync g && mv g f")),
    Program("sort", "`sort -o f f`", ("sort", "-o", "f", "f")),
    Program("cp", "`cp g f`", ("cp", "g", "f"), before=OLD + "; echo new > g"),
    Program("cp-backup", "`cp -b g f`: the old file becomes the backup `f~`", ("cp", "-b", "g", "f"),
            before=OLD + "; echo new > g", options=BACKUP),
    Program("install", "`install g f`: the old file is deleted first", ("install", "g", "f"),
            before=OLD + "; echo new > g"),
    Program("tar", "`tar -x`: the old file is deleted first", ("tar", "-xf", "g.tar"),
            before="echo new > f; tar -cf g.tar f; " + OLD),
    Program("dd", "`dd conv=fsync`", ("dd", "if=g", "of=f", "conv=fsync", "status=none"),
            before=OLD + "; echo new > g"),
    Program("tee", "`tee f`", shell("echo new | tee f > /dev/null")),
    Program("rsync", "`rsync`: a new file, renamed over the old one", ("rsync", "g", "f"),
            before=OLD + "; echo newer > g", needs="rsync"),
    Program("rsync-fsync", "`rsync --fsync`", ("rsync", "--fsync", "g", "f"), before=OLD + "; echo newer > g",
            needs="rsync"),
    Program("patch", "`patch`: a new file, renamed over the old one", ("patch", "-s", "f", "g"),
            before=OLD + "; sed s/h/H/ f > h; diff -u f h > g; rm h"),
    Program("gzip", "`gzip f`: `f.gz` is written, and `f` is deleted", ("gzip", "f"), options=("--spare", "f", "f.gz")),
    Program("gzip-synchronous", "`gzip --synchronous f`", ("gzip", "--synchronous", "f"),
            options=("--spare", "f", "f.gz")),
    Program("dpkg", "`dpkg -i`: a file that a package brings again",
            ("dpkg", "--root=.", "--log=/dev/null", "--force-script-chrootless", "--no-force-unsafe-io", "-i", "g.deb"),
            before="mkdir -p p/DEBIAN p/d && printf 'Package: a\\nVersion: 1\\nArchitecture: all\\nMaintainer: a\\n"
                   "Description: a\\n' > p/DEBIAN/control && echo old > p/d/f && dpkg-deb -b p g.deb && "
                   "mkdir -p var/lib/dpkg/info var/lib/dpkg/updates && touch var/lib/dpkg/status && "
                   "dpkg --root=. --log=/dev/null --force-script-chrootless -i g.deb && echo new > p/d/f && "
                   "sed -i s/1/2/ p/DEBIAN/control && dpkg-deb -b p g.deb && rm -r p",
            options=("--keep", "d/f", "--ignore", "var/*", "--ignore", "tmp/*")),
    Program("useradd", "`useradd`: the tables of users",
            ("sh", "-c", "useradd -P $PWD -u 2000 bob"), needs="useradd",
            before="mkdir etc && cp /etc/passwd /etc/shadow /etc/group /etc/gshadow /etc/login.defs etc",
            options=("--keep", "etc/passwd", "--spare", "etc/passwd", "etc/passwd-", "--ignore", "etc/*.lock",
                     "--ignore", "etc/*.[0-9]*")),
    Program("ssh-keygen", "`ssh-keygen -R`: a host taken out of `known_hosts`", ("ssh-keygen", "-R", "a", "-f", "f"),
            before="ssh-keygen -q -t ed25519 -N '' -f k; (printf 'a '; cat k.pub; printf 'b '; cat k.pub) > f",
            options=("--spare", "f", "f.old")),
    Program("jq", "`jq . f > g && mv g f`", shell("jq .a=1 f > g && mv g f"), before="echo '{}' > f"),
]
