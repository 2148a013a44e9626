"""Wrong pages, words for bash, services and packages, each of which tests/package has to refuse. Not a test: tests/known_bad.py
imports it. A wrong one is a text of a file, standing there once, that is another one."""
import os
import shutil
from typing import NamedTuple

import checks

STARTED = "scripts"  # The programs that pack: what they import may be wrong.
AS_THEY_STAND = ("contrib", "edge", "examples", "feed", "tools")  # What debhelper packs of these, it packs as it finds it: links as links.
# What a test needs; those of a package need debhelper.
NEEDED = {"lint_of_the_pages": "mandoc", "lint_of_the_package": "lintian", "services": "systemd-analyze",
          "the_user_of": "systemd-sysusers", "calls_of_the_step": "cc", "calls_of_the_package": "cc", "trusts_no_memory": "cc",
          "calls_of_the_watch": "cc", "of_the_firewall": "nft",
          "lint_of_the_edge_pages": "mandoc", "lint_of_the_edge_package": "lintian", "services_of_the_edge": "systemd-analyze",
          "users_of_the_edge": "systemd-sysusers"}
FOR_ROOT = {"test_let_go", "no_store", "silent_machines", "never_answered", "hears_nobody", "evictions_that", "answer_again",
            "commands_that_hang", "that_begin_late", "of_this_machine", "own_mounts", "words_of_the_fence", "go_of_cephfs",
            "what_machines_leave", "that_say_no_word", "of_the_firewall"}  # Tests that mount, or have a network.
# Tests for which the system's folders have to be others.
IN_OTHER_PLACES = {"as_it_is", "behind_it", "edge_example", "edge_as_it_is_installed", "edge_as_it_is_removed", "edge_example_hours",
                   "edge_second_member"}


class Wrong(NamedTuple):
    """What is another text, in which file, and the tests that are to see it."""
    file: str
    old: str
    new: str
    tests: str

    def can_be_seen(self) -> bool:
        """Whether what the tests need is here."""
        has_programs = all(shutil.which(it) for it in ("dh_builddeb", NEEDED.get(self.tests, "dh_builddeb")))
        has_edge = not self.is_of_the_edge() or checks.is_edge_built()
        has_rights = self.tests not in FOR_ROOT or os.geteuid() == 0
        return has_programs and has_edge and has_rights and (self.tests not in IN_OTHER_PLACES or checks.can_have_places())

    def is_of_the_edge(self) -> bool:
        """Whether it is of the edge's package, which is there once the edge is built."""
        return "edge" in self.tests

    def put(self, root: str, folder: str) -> str:
        """Makes a project in this folder that is wrong so, and gives the path of tests/package there."""
        above = self.file.partition("/")[0]
        checks.link_there(root, (STARTED, above if above in AS_THEY_STAND else self.file), folder)
        checks.change(os.path.join(folder, self.file), self.old, self.new)
        return os.path.join(folder, "tests/package")


VENUED, REPLAY, GIKVAND, JOURNAL = (f"contrib/man/{it}" for it in ("venued.8", "venue-replay.1", "gikvand.1", "venue.journal.5"))
SERVICE, SERVICES = "contrib/venued.service", "contrib/venued@.service"
STEP, SERVE, SETTINGS, STANDBY, LET_GO = (f"contrib/standby/{it}" for it in ("before-start", "serve", "volume-settings", "venued@.conf",
                                                                             "let-go"))
FENCE, CEPH_SETTINGS, DRILL_CEPH = "contrib/standby/fence-ceph", "contrib/standby/ceph-settings", "dev/drill_ceph.py"
DRILL, DRILL_CONTRACT, DRILL_STORE = "dev/drill.py", "dev/drill_contract.py", "dev/drill_store.py"
OPERATING, RECIPE = "docs/OPERATING.md", "contrib/container/Containerfile"
SCRIPT, COMMANDS, COMPLETION, RELEASE = "scripts/package", "scripts/commands_page.py", "contrib/gikvand.bash", "scripts/release"
EDGE_PAGE, EDGE_SETTINGS, EDGE_LIST = "contrib/man/gikvand-edge.8", "docs/EDGE.md", "scripts/settings_page.py"
EDGE_SERVICE, EDGE_USERS, DROP_IN = (f"contrib/edge/{it}" for it in ("gikvand-edge@.service", "gikvand-edge.sysusers", "venued-edge.conf"))
RULES, CONTROL, PACKED, EDGE_PACKED, EDGE_PRERM = (f"contrib/debian/{it}" for it in ("rules", "control", "gikvand.install",
                                                                                     "gikvand-edge.install", "gikvand-edge.prerm"))
OF_ITS_TIME = '"SOURCE_DATE_EPOCH": str(time)', '"SOURCE_DATE_EPOCH": str(int(os.stat(folder).st_mtime))'
WRONG = {
    "a release of what no commit has": Wrong(RELEASE, 'if changed := line_of("git", "status", "--porcelain"):', 'if changed := "":', "no_commit_has"),
    "a release of files that git doesn't know": Wrong(RELEASE, '"--porcelain"', '"--porcelain", "--untracked-files=no"', "no_commit_has"),
    "a release of a crate without a verdict": Wrong(RELEASE, "if it not in found]:", "if False]:", "verdicts_that_lack[none]"),
    "a release of what failed": Wrong(RELEASE, "if not PASSED.fullmatch(", "if PASSED.fullmatch(", "verdicts_that_lack"),
    "a verdict of the crate's tests": Wrong(RELEASE, "if not head[2] and (it := ", "if (it := ", "verdicts_that_lack[one]"),
    "nothing that the prover trusts": Wrong(RELEASE, 'if word.endswith("=trusted")]', "if False]", "a_release"),
    "programs as they were built alone": Wrong(RELEASE, 'programs[name]["packaged"] = came', "pass", "a_release"),
    "an archive of its hour": Wrong(RELEASE, "gzip.compress(archive, 9, mtime=0)", "gzip.compress(archive, 9)", "a_release"),
    "sources without the last": Wrong(RELEASE, "for it in names if it}", "for it in names[1:] if it}", "a_release"),
    "sums without the manifest": Wrong(RELEASE, "for it in sorted(files))", "for it in sorted(files[:-1]))", "a_release"),
    "a release without the feed": Wrong(SCRIPT, 'list(PROGRAMS) if given', 'list(PROGRAMS)[:2] if given', "a_release"),
    "packages of their hour": Wrong(RELEASE, '"git", "log", "-1", "--format=%ct")', '"date", "+%s")', "a_release"),
    "verdicts that are made once more": Wrong(RELEASE, "    if verdicts:\n", "    if False:\n", "verdicts_of_before"),
    "a program that isn't built": Wrong(RELEASE, "if not os.access(it, os.X_OK)]", "if False]", "no_commit_has"),
    "words in another order": Wrong(VENUED, ".Ar PORT JOURNAL GATEWAYS", ".Ar JOURNAL PORT GATEWAYS", "usages"),
    "a word too few": Wrong(REPLAY, " Ns | Ns Cm check\n", "\n", "usages"),
    "more ports": Wrong(VENUED, "1 to 65528", "1 to 65535", "words_of_the_programs"),
    "a status that means another thing": Wrong(REPLAY, "The whole report, or", "Half a report, or", "statuses"),
    "a status of gikvand too many": Wrong(GIKVAND, "line on standard error says why.\n.El", "line on standard error says why.\n"
                                          ".It 3\nNobody knows.\n.El", "statuses"),
    "a line too few": Wrong(VENUED, ".It venued: no memory\n", "", "lines_on_standard_error"),
    "a line that no program says": Wrong(REPLAY, "journal fault 46", "journal fault 47", "lines_on_standard_error"),
    "a line with another status": Wrong(VENUED, "Status 2: a write", "Status 1: a write", "lines_on_standard_error"),
    "an option too few": Wrong(COMMANDS, "and not is_common(it)]", "and it.nargs is None and not is_common(it)]", "commands_of_gikvand"),
    "an option told otherwise": Wrong(COMMANDS, "{words[1:]}.", "{words[1:20]}.", "commands_of_gikvand"),
    "a request too few": Wrong(COMMANDS, '"\\\\e").splitlines()', '"\\\\e").splitlines()[:-1]', "commands_of_gikvand"),
    "a paragraph too few": Wrong(COMMANDS, '.split("\\n\\n")):', '.split("\\n\\n")[:2]):', "commands_of_gikvand"),
    "an option that has to stand there": Wrong(COMMANDS, 'f"Oo {words} Oc" if', "words if", "commands_of_gikvand"),
    "options beside one another": Wrong(COMMANDS, '" | ".join(', '" ".join(', "commands_of_gikvand"),
    "an option of all, by each": Wrong(COMMANDS, "return it.help == common._actions[-1].help", "return False", "commands_of_gikvand"),
    "examples in one line": Wrong(COMMANDS, '        if part.startswith(" "):\n', "        if False:\n", "commands_of_gikvand"),
    "an image that starts nothing": Wrong(RECIPE, " && systemctl enable venued", "", "recipe_of_containers"),
    "an image without the edge": Wrong(RECIPE, " /root/gikvand-edge_*_amd64.deb && ", " && ", "recipe_of_containers"),
    "a page without its commands": Wrong(SCRIPT, 'commands_page.filled(contents(f"contrib/man/{name}"))', 'contents(f"contrib/man/{name}")',
                                         "files_of_the_package"),
    "a journal of another version": Wrong(JOURNAL, "00 00 00 03 00", "00 00 00 02 00", "the_page_of"),
    "longer messages": Wrong(JOURNAL, "1 to 320 Ta its", "1 to 321 Ta its", "the_page_of"),
    "a list without an end": Wrong(VENUED, ".It 128 + n\nSignal n ended it, as a shell says it.\n.El\n", "", "lint_of_the_pages"),
    "an option that isn't completed": Wrong(COMPLETION, "--prometheus --quick", "--prometheus", "completed"),
    "a command that isn't completed": Wrong(COMPLETION, '    [day]=""\n', "", "completed"),
    "values as options": Wrong(COMPLETION, '    elif [[ $_gikvand_valued == *" $before "* ]]; then\n        return\n', "", "completed"),
    "values as words": Wrong(COMPLETION, '-*) [[ $_gikvand_valued == *" ${words[at]} "* ]] && ((at += 1)) ;;', "-*) ;;", "completed"),
    "files that aren't completed": Wrong(COMPLETION, " --journal --keep --password-file --sources ", " --keep --password-file --sources ", "completed"),
    "values behind a sign": Wrong(COMPLETION, "        before=${begun%%=*} begun=${begun#*=}\n", "        before=${begun%%=*}\n", "completed"),
    "symbols that bash does": Wrong(COMPLETION, "$symbol =~ ^[A-Z0-9]{1,8}$ && ", "", "completed"),
    "symbols twice": Wrong(COMPLETION, '&& " $* " != *" $symbol "* ', "", "completed"),
    "a program without completion": Wrong(COMPLETION, "complete -F _venued venued\n", "", "completed"),
    "words that are cut": Wrong(COMPLETION, "if ((at > 0)) &&", "if false &&", "completed"),
    "rights of root": Wrong(SERVICE, "CapabilityBoundingSet=\n", "", "services"),
    "calls of all kinds": Wrong(SERVICES, "SystemCallFilter=@system-service\nSystemCallFilter=~@privileged @resources\n", "",
                                "services"),
    "a key that there isn't": Wrong(SERVICES, "RestartSec=5", "RestartSeconds=5", "services"),
    "one folder for all": Wrong(SERVICES, "WorkingDirectory=/var/lib/venued/%i", "WorkingDirectory=/var/lib/venued", "settings_of"),
    "a share as any other has": Wrong(SERVICE, "CPUWeight=1000\n", "", "settings_of"),
    "a limit of starts": Wrong(SERVICE, "StartLimitIntervalSec=0", "StartLimitIntervalSec=300", "settings_of"),
    "a journal in one word": Wrong(COMPLETION, "            --journal=*) journal=${words[at]#*=} ;;\n", "", "completed"),
    "a user who may log in": Wrong("contrib/venued.sysusers", "/var/lib/venued\n", "/var/lib/venued /bin/bash\n", "the_user_of"),
    "programs with their symbols": Wrong(RULES, "\tdh_strip --no-automatic-dbgsym\n", "", "files_of_the_package"),
    "times of now": Wrong(SCRIPT, *OF_ITS_TIME, "the_same"),
    "times of before": Wrong(RULES, "\tfind debian -exec touch --no-dereference --date=@$(SOURCE_DATE_EPOCH) {} +\n", "", "the_same"),
    "rights of who makes it": Wrong(RULES, "\tdh_fixperms\n", "", "the_same"),
    "files of all rights": Wrong(RULES, "\tdh_fixperms\n", "\tchmod -R a+w debian/*/usr\n", "files_of_the_package"),
    "a module too few": Wrong(PACKED, "*.{py,html}", "*.html", "files_of_the_package"),
    "a page too few": Wrong(PACKED, "*.{py,html}", "*.py", "files_of_the_package"),
    "sums of nothing": Wrong(RULES, "\tdh_md5sums\n", "", "archive_of_the_package"),
    "a changelog that isn't packed": Wrong(RULES, "\tdh_installchangelogs --no-trim\n", "", "files_of_the_package"),
    "what is no program": Wrong(SCRIPT, 'if file.read(4) != b"\\x7fELF":', "if False:", "words_of_the_script"),
    "a packer that isn't looked for": Wrong(SCRIPT, 'if not shutil.which("dh_builddeb"):', "if False:", "words_of_the_script"),
    "a program of debhelper's that may fail": Wrong("contrib/debian/one-process.pl", "    exit 1 if $?;\n", "", "words_of_the_script"),
    "a line that the runbook hasn't": Wrong(OPERATING, "`COPY is the journal itself`, ", "", "the_runbook"),
    "an alarm that the runbook hasn't": Wrong(OPERATING, " (`member_unsent_bytes`). ", ". ", "the_runbook"),
    "a fault that the runbook hasn't": Wrong(OPERATING, "| `NEW exists` | `venue-replay` | 1 | nothing was written: give another name |\n",
                                             "", "lines_on_standard_error"),
    "a fault of another program": Wrong(OPERATING, "| `NEW exists` | `venue-replay` |", "| `NEW exists` | `venue-events` |",
                                        "lines_on_standard_error"),
    "another status in the runbook": Wrong(OPERATING, "| `journal failed` | `venued` | 2 |", "| `journal failed` | `venued` | 1 |",
                                           "lines_on_standard_error"),
    "a line elsewhere that no program says": Wrong(OPERATING, "`venued: ready, ..`", "`venued: no reason`", "lines_on_standard_error"),
    "a status that no program has": Wrong(OPERATING, "| signal n ended it | | | |", "| signal n ended it | as there | | |", "statuses"),
    "statuses of other programs": Wrong(OPERATING, "| status | `venued` | `venue-replay` |", "| status | `venue-replay` | `venued` |",
                                        "statuses"),
    "a release too few": Wrong(SCRIPT, "heads = list(RELEASE.finditer(text))", "heads = list(RELEASE.finditer(text))[:-1]",
                               "the_changelog"),
    "changes of one line alone": Wrong(SCRIPT, "(.*(?:\\n  .*)*)", "(.*\\.)$", "the_changelog"),
    "no licence": Wrong(SCRIPT, '    "LICENSE": "debian/copyright",\n', "", "lint_of_the_package"),
    "programs of the repository": Wrong("tools/gikvand/programs.py", "IS_INSTALLED = ROOT ==", "IS_INSTALLED = False and ROOT ==",
                                        "a_venue_of"),
    "a step without a lock": Wrong(STEP, "fcntl.flock(fd, fcntl.LOCK_EX | fcntl.LOCK_NB)", "pass", "step_that"),
    "a step that writes nothing": Wrong(STEP, "os.pwrite(fd, data, at)", "len(data)", "step_of"),
    "a step that skips the rest": Wrong(STEP, "len(end) - LAST), len(end), PIECE", "len(end) - LAST), len(end) - PIECE, PIECE", "step_of"),
    "a watch that asks": Wrong(SERVE, 'kill -KILL "$1"', 'kill "$1"', "the_watch"),
    "symbols of nobody": Wrong(SERVE, '"${symbols[@]}"', "ABC", "symbols_of_the_volume"),
    "locks that aren't strict": Wrong(SETTINGS, "    client.strict-locks on\n", "", "settings_of_the_volume"),
    "a mount with old bytes": Wrong("docs/FAILOVER.md", "direct-io-mode=enable 0 0", "direct-io-mode=auto 0 0", "options_of_the_mount"),
    "a standby that gives up": Wrong(STANDBY, "Restart=on-failure\n", "", "unit_of_a_standby"),
    "a standby's key that there isn't": Wrong(STANDBY, "RestartSec=500ms", "RestartSeconds=1", "services"),
    "a script that isn't found": Wrong("contrib/debian/gikvand.links", "gikvand/scripts/gikvand ", "gikvand/gikvand ", "a_venue_of"),
    "a step that doesn't wait": Wrong(STEP, "at + count\n    os.fsync(fd)\n", "at + count\n", "calls_of_the_step"),
    "a step that remembers": Wrong(STEP, "    os.posix_fadvise(fd, 0, 0, os.POSIX_FADV_DONTNEED)\n", "    pass\n", "trusts_no_memory"),
    "a step that forgets the beginning alone": Wrong(STEP, "os.posix_fadvise(fd, 0, 0,", "os.posix_fadvise(fd, 0, PIECE,",
                                                     "calls_of_the_step"),
    "pages that aren't synced": Wrong(STEP, "    os.fsync(fd)\n    os.posix_fadvise", "    os.posix_fadvise", "calls_of_the_step"),
    "a step that doesn't compare": Wrong(STEP, "if past in (None, found):", "if True:", "trusts_no_memory"),
    "a step that reads one memory twice": Wrong(STEP, "flags | os.O_DIRECT", "flags", "trusts_no_memory"),
    "a watch that only touches": Wrong(SERVE, 'dd if=/dev/zero of="$file" bs=1 count=1 conv=fsync,notrunc 2>/dev/null', 'touch "$file"',
                                       "calls_of_the_watch"),
    "a byte that isn't synced": Wrong(SERVE, "conv=fsync,notrunc", "conv=notrunc", "calls_of_the_watch"),
    "a venue that may stay": Wrong(SERVE, 'goes "$1" || let_go', 'goes "$1"', "a_venue_that_stays"),
    "a client that is ended anyway": Wrong(SERVE, 'goes "$1" || let_go', "let_go", "a_venue_that_stays"),
    "a client that goes on": Wrong(LET_GO, "os.kill(pid, signal.SIGKILL)", "os.kill(pid, 0)", "test_let_go"),
    "a mount that stays away": Wrong(LET_GO, "while kind and not mounts(mount):", "while False:", "test_let_go"),
    "any mount": Wrong(LET_GO, 'if it[it.index("-") + 1].startswith("fuse")', "", "no_store"),
    "a fence for who never answered": Wrong(FENCE, "elif self.heard is not None and time.monotonic() - self.heard >= SILENCE and not self",
                                            "elif not self",
                                            "never_answered"),
    "a fence of the own machine": Wrong(FENCE, "if it.name != own]", "]", "silent_machines"),
    "a fence of one time": Wrong(FENCE, "                    self.heard = None\n                    self.is_silent.clear()\n",
                                 "                    return\n", "silent_machines"),
    "a fence of who is alone": Wrong(FENCE, "any(it.is_heard_behind(self) for it in others) and ", "", "hears_nobody"),
    "a fence by what was heard before": Wrong(FENCE, " and (self.heard or 0.0) - (silent.heard or 0.0) > SILENCE / 2", "", "stood_still"),
    "clients that are left": Wrong(FENCE, "name not in machines_in(left)", "True", "evictions_that"),
    "an eviction that is tried once": Wrong(FENCE, "                else:\n                    time.sleep(PAUSE)\n", "                else:\n"
                                            "                    return\n", "evictions_that"),
    "an eviction of who answers": Wrong(FENCE, "if is_late or self.is_off():", "if is_late:", "answer_again"),
    "a fence that one wrong answer ends": Wrong(FENCE, "except (OSError, ValueError) as why:", "except OSError as why:", "that_say_no_word"),
    "a command that hangs": Wrong(FENCE, "is_late = time.monotonic() > end", "is_late = False", "commands_that_hang"),
    "a command that hangs longer and longer": Wrong(FENCE, "min(2 * self.longest, MOST)", "2 * self.longest", "commands_that_hang"),
    "a command that never has more time": Wrong(FENCE, "min(2 * self.longest, MOST)", "self.longest", "that_begin_late"),
    "a mount that is let go of by any fault": Wrong(FENCE, "if why.errno == errno.ESHUTDOWN:", "if True:", "of_this_machine"),
    "a mount that stays dead": Wrong(FENCE, "errno.ESHUTDOWN:", "errno.ENOTCONN:", "of_this_machine"),
    "own mounts that nobody looks for": Wrong(FENCE, "if evicts_own(server, own) else 1", "if True else 1", "own_mounts"),
    "own mounts that are evicted once": Wrong(FENCE, "    while time.monotonic() < end:\n", "    if True:\n", "own_mounts"),
    "names of anything": Wrong(FENCE, "if not NAME.fullmatch(self.name):", "if False:", "words_of_the_fence"),
    "any file system": Wrong(FENCE, 'return f"mds.{found[1]}:0" if found else "mds.0"', 'return "mds.0"', "own_mounts"),
    "an old mount that keeps the lock": Wrong(LET_GO, 'if kind == "fuse.ceph":', "if False:", "go_of_cephfs"),
    "a fence with an end": Wrong(CEPH_SETTINGS, "mon_osd_blocklist_default_expire = 315360000\n", "", "settings_of_the_page"),
    "a setting that can't be left out": Wrong(DRILL_CEPH, '        lines[at] = f"{name} = {value}"\n', "        pass\n",
                                              "settings_of_the_drill"),
    "copies that aren't whole": Wrong(DRILL_CEPH, '>= {"active", "clean"}', '>= {"active"}', "what_ceph_says"),
    "a status that is taken from who waits for it": Wrong(DRILL_CONTRACT, ' and len(told["NSpid"].split()) > 1', "", "what_machines_leave"),
    "a machine that can't end": Wrong(DRILL_CONTRACT, 'told["State"].split()[0] == "Z"', "False", "what_machines_leave"),
    "a fault that is passed over": Wrong(DRILL, "time.monotonic())) > STOOD:", "time.monotonic())) > 0:", "that_stand_still"),
    "a machine that never stands still": Wrong(DRILL, "time.monotonic())) > STOOD:", "time.monotonic())) < 0:", "that_stand_still"),
    "losses that are late": Wrong(DRILL, "    except Unseen as why:\n", "    except Trouble as why:\n", "that_stand_still"),
    "a plant that any fault shows": Wrong(DRILL_STORE, 'LIVES_ON = "says \'status 137\': not within "', 'LIVES_ON = ": not within "',
                                          "what_plants_tell"),
    "an answer of a daemon's in one piece": Wrong(DRILL_CEPH, 'with ends.makefile("rb") as came:', 'with ends.makefile("rb", 0) as came:',
                                                  "what_a_daemon_answers"),
    "a write that one has": Wrong(DRILL_CEPH, '{"op_commit", "sub_op_commit_rec"} <=', '{"op_commit"} <=', "what_ceph_says"),
    "two kilobytes alone": Wrong(STEP, "LAST = 2 << 20", "LAST = 2 << 10", "calls_of_the_step"),
    "a lock that others share": Wrong(STEP, "fcntl.LOCK_EX | fcntl.LOCK_NB", "fcntl.LOCK_SH | fcntl.LOCK_NB", "step_beside"),
    "the end of a gigabyte": Wrong(STEP, "start + first\n", "(start + first) % (1 << 30)\n", "step_of_a_long"),
    "a touch that hangs for ever": Wrong(SERVE, 'read -r -t "$LONGEST"', "read -r", "a_touch"),
    "a user that isn't made": Wrong(RULES, "\tdh_installsysusers\n", "", "as_it_is"),
    "an upgrade that stops": Wrong("contrib/debian/gikvand.prerm", 'if [ "$1" = remove ] && [ -d', "if [ -d", "as_it_is"),
    "a purge of the journals": Wrong("contrib/debian/gikvand.postrm",
                                     'echo "gikvand: the journals in /var/lib/venued stay, and the user venued"',
                                     "rm -rf /var/lib/venued", "behind_it"),
    "an older library": Wrong(RULES, "-v$(VERSION)", "-v$(VERSION) '-Vshlibs:Depends=libc6 (>= 2.2.5)'", "needs_of_the_package"),
    "programs without their libraries": Wrong(RULES, "\tdh_shlibdeps\n", "", "needs_of_the_package"),
    "a package in place": Wrong(SCRIPT, "make(names[-1], file.read(), 0o666)", "shutil.copyfile(path, names[-1])", "calls_of_the_package"),
    "a Python of the path": Wrong(RULES, ",/usr/bin/python3,", ",&,", "python_of"),
    "a port for everybody": Wrong("contrib/front/members.nft",
                                  "        tcp dport 9001-9002 fib daddr type local ct state new reject with tcp reset\n", "",
                                  "of_the_firewall"),
    "a member at another's port": Wrong("contrib/front/members.nft", 'tcp dport 9002 meta skuid "member-c2"',
                                        'tcp dport 9001-9002 meta skuid "member-c2"',
                                        "of_the_firewall"),
    "a tunnel to every port": Wrong("contrib/front/sshd.conf", "    PermitOpen 127.0.0.1:9002\n", "", "test_users"),
    "a tunnel with a shell": Wrong("contrib/front/sshd.conf", "    PermitTTY no\n", "", "test_users"),
    "a release that isn't one": Wrong(SCRIPT, '"+unreleased" * has_more(found)', '""', "versions_of_the_package"),
    "a form of the edge too few": Wrong(EDGE_PAGE, ".Op Fl -check\n", "", "edge_usage"),
    "a word of the edge told otherwise": Wrong(EDGE_PAGE, "looks at the settings, and serves nobody", "serves all", "edge_words"),
    "a status of the edge too many": Wrong(EDGE_PAGE, ".It 1\nA line on standard error says why it", ".It 2\nNobody knows.\n.It 1\n"
                                           "A line on standard error says why it", "edge_statuses"),
    "a setting too few": Wrong(EDGE_SETTINGS, "| `LastCapacity` |", "| LastCapacity |", "edge_settings"),
    "a list without its settings": Wrong(EDGE_LIST, "listed(edge))", '"")', "edge_settings"),
    "values that aren't told": Wrong(EDGE_LIST, '*prose(f"{value[0].upper()}{value[1:]}."), ', "", "edge_settings"),
    "a default that is another one": Wrong(EDGE_SETTINGS, "| 20000 |", "| 10000 |", "edge_defaults"),
    "an example with a name that isn't known": Wrong("contrib/edge/examples/C1.cfg", "SocketAcceptPort=", "AcceptPort=",
                                                     "edge_example"),
    "an example without weekends": Wrong("contrib/edge/examples/C1.cfg", "#StartDay=Monday\n#EndDay=Saturday",
                                         "StartDay=Monday\nEndDay=Saturday", "edge_example_hours"),
    "a second member at the first one's port": Wrong(EDGE_SETTINGS, "; s/9801/9802/'", "'", "edge_second_member"),
    "a second member by the first one's name": Wrong(EDGE_SETTINGS, "s/DESK-A/DESK-B/; ", "", "edge_second_member"),
    "links as they are in the sources": Wrong(SCRIPT, 'LINK.sub(led, contents(name)) if name.endswith(".md") else contents(name)',
                                              "contents(name)", "edge_links"),
    "links from the root": Wrong(SCRIPT, "os.path.relpath(places[target], os.path.dirname(place))", "places[target]", "edge_links"),
    "pages that nothing has": Wrong("contrib/debian/gikvand.docs", "docs/MEASURED.md\n", "", "edge_links"),
    "an example of a stunnel for anybody": Wrong("edge/stunnel/member.conf", "verifyPeer = yes", "verifyPeer = no", "edge_example"),
    "an edge without its dictionary": Wrong(EDGE_PACKED, "edge/FIX44-edge.xml usr/share/gikvand-edge\n", "", "edge_example"),
    "several venues that stay closed": Wrong(EDGE_PACKED, "named/gikvand-edge.conf usr/lib/systemd/system/venued@.service.d\n", "",
                                             "files_of_the_edge"),
    "a page of the edge too few": Wrong("contrib/debian/gikvand-edge.manpages", "man/gikvand-edge.cfg.5\n", "", "files_of_the_edge"),
    "pages that are packed": Wrong(RULES, "dh_compress --exclude=.md --exclude=.svg --exclude=.xml", "dh_compress", "files_of_the_edge"),
    "an edge without a folder of settings": Wrong(RULES, "\tdh_installdirs\n", "", "files_of_the_edge"),
    "the venue in the place of the edge": Wrong(SCRIPT, "made(packages, given", 'made(["gikvand"], given', "archive_of_the_edge"),
    "an edge of any release": Wrong(CONTROL, "gikvand (= ${binary:Version}), ${shlibs:Depends}, ${misc:Depends}\nRecommends",
                                    "gikvand, ${shlibs:Depends}, ${misc:Depends}\nRecommends", "needs_of_the_edge"),
    "a library too few": Wrong(RULES, "dh_shlibdeps\n", "dh_shlibdeps -- -xlibsqlite3-0\n", "needs_of_the_edge"),
    "a release of the edge alone": Wrong(RULES, "dh_gencontrol --", "dh_gencontrol -- -DSource=gikvand-edge", "changelog_of_the_edge"),
    "times of now, of the edge": Wrong(SCRIPT, *OF_ITS_TIME, "same_bytes_of_the_edge"),
    "an edge that isn't looked for": Wrong(SCRIPT, "    if not os.access(program, os.X_OK):\n", "    if False:\n", "unbuilt_edge"),
    "settings without an end": Wrong(EDGE_LIST, '*items, ".El", ""', '*items, ""', "lint_of_the_edge_pages"),
    "sentences in one line": Wrong(EDGE_LIST, "SENTENCE.split(words.strip())", "[words.strip()] if words.strip() else []",
                                   "lint_of_the_edge_pages"),
    "an edge without a licence": Wrong(SCRIPT, '    "LICENSE": "debian/copyright",\n', "", "lint_of_the_edge_package"),
    "an edge with rights of root": Wrong(EDGE_SERVICE, "CapabilityBoundingSet=\n", "", "services_of_the_edge"),
    "a venue's key that there isn't": Wrong(DROP_IN, "\nUMask=0027", "\nUMasks=0027", "services_of_the_edge"),
    "an edge's user who may log in": Wrong(EDGE_USERS, "/var/lib/gikvand-edge/C3\n", "/var/lib/gikvand-edge/C3 /bin/bash\n",
                                           "users_of_the_edge"),
    "a journal of before that stays closed": Wrong(DROP_IN, "chmod g+r ", "chmod u+r ", "edge_reads"),
    "a journal that edges may write": Wrong(DROP_IN, "chmod g+r ", "chmod g+rw ", "edge_reads"),
    "a folder that stays closed": Wrong(DROP_IN, "\nStateDirectoryMode=0750", "", "edge_reads"),
    "a page to begin with that leads nowhere": Wrong("contrib/debian/gikvand.README.Debian", '"First start" in', '"The first start" in',
                                                     "page_to_begin_with"),
    "edges without users": Wrong(RULES, "\tdh_installsysusers\n", "", "edge_as_it_is_installed"),
    "an upgrade that stops edges": Wrong(EDGE_PRERM, 'if [ "$1" = remove ] && [ -d', "if [ -d", "edge_as_it_is_removed"),
    "edges that run on without their program": Wrong(EDGE_PRERM, "    deb-systemd-invoke stop 'gikvand-edge@*.service' >/dev/null\n",
                                                     "    true\n", "edge_as_it_is_removed"),
    "a purge of the records": Wrong("contrib/debian/gikvand-edge.postrm", 'echo "gikvand-edge: the records in /var/lib/gikvand-edge stay, the settings, and the '
                                    'users gikvand-edge-C1 to C8"', "rm -rf /var/lib/gikvand-edge", "edge_as_it_is_removed"),
    "a form of the edge's numbers too few": Wrong(EDGE_PAGE, ".Nm\n.Cm numbers\n.Ar Ck OUT IN\n.Ar SETTINGS ...\n", "", "edge_usage"),
    "numbers of a session told otherwise": Wrong(EDGE_PAGE, "Shows the next numbers of the member's session", "Shows them", "edge_switch"),
    "numbers that aren't completed": Wrong(COMPLETION, "cancel halt status numbers", "cancel halt status", "edge_words_completed"),
    "members that aren't completed": Wrong(COMPLETION, '"$begun" all "${_gikvand_members[@]}"', '"$begun" all', "edge_words_completed"),
    "a word of the edge that isn't completed": Wrong(COMPLETION, '" --check --help --version"', '" --check --help"', "edge_words_completed"),
    "files where members stand": Wrong(COMPLETION, '        1:--member:*) _gikvand_of "$begun" "${_gikvand_members[@]}" ;;\n', "",
                                       "edge_words_completed"),
}
