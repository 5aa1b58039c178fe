#!/usr/bin/env python3
"""Makes the man pages and the completion for bash of the tables of docs/MANUAL.md and docs/TOOLS.md, and GTKWave's names of the TAP states
of that of docs/formats/WAVES.md: words.py, at the top of a checkout.

    words.py            says whether the files of share/ are what the tables give, whether README.md's table of commands has the same words,
                        and whether the completion completes
    words.py --write    writes these files"""
import pathlib
import re
import subprocess
import sys


class Page:
    """The tables of a page, and of one of a program its commands and words."""

    def __init__(self, name, of_program=True):
        self.name, self.text, self.commands, self.words = name, pathlib.Path(name).read_text(), [], {}
        if not of_program:
            return
        rows = self.table('Command', 'Words', 'What it does')
        self.commands = [(name.strip('`'), words.strip('`').split(), plain(what)) for name, words, what in rows]
        self.words = {name.strip('`'): plain(what) for name, what in self.table('Word', 'What it is')}

    def table(self, *heading):
        """The cells of the table with this heading."""
        lines = self.text[self.text.index('| ' + ' | '.join(heading) + ' |'):].split('\n\n')[0].splitlines()
        return [[cell.strip().replace('\\|', '|') for cell in re.split(r'(?<!\\)\|', line)[1:-1]] for line in lines[2:]]


def plain(text):
    """A cell without its links and marks."""
    text = re.sub(r' ?\(\[[^]]*\]\([^)]*\)\)', '', text)
    return re.sub(r'[`*]', '', re.sub(r'\[([^]]*)\]\([^)]*\)', r'\1', text))


manual, tools = Page('docs/MANUAL.md'), Page('docs/TOOLS.md')
# a word that both pages have means what the program's own page says
tools.words = {it: {**manual.words, **tools.words}[it] for _, its, _ in tools.commands for it in its}
statuses = [(number, plain(when), plain(then)) for number, when, then in manual.table('Status', 'When', 'What is there afterwards')]


def roff(text):
    """Text for man: no line begins with a dot or a quote, and dashes and backslashes stay as they are."""
    return re.sub(r"(?m)^([.'])", r'\\&\1', text.replace('\\', '\\e').replace('-', '\\-'))


def italic(text):
    """Words in capitals are those of the command line."""
    return ' '.join(f'\\fI{it}\\fR' for it in text)


def man_page(program, page, what_it_is):
    name = roff(program)
    lines = [f'.\\" made from {page.name} by .ci/words.py', f'.TH {name.upper()} 1 "" ijtag "User commands"', '.SH NAME',
             f'{name} \\- {roff(what_it_is)}', '.SH SYNOPSIS']
    for command, its, _ in page.commands:
        lines += [f'.B {name} {command}', italic(its), '.br']
    lines += ['.SH COMMANDS']
    for command, its, what in page.commands:
        lines += ['.TP', f'\\fB{command}\\fR {italic(its)}', roff(what)]
    lines += ['.SH WORDS']
    for word, what in page.words.items():
        lines += ['.TP', f'\\fI{word}\\fR', roff(what)]
    lines += ['.PP', 'A command has exactly its words, and there are no options.', '.SH EXIT STATUS']
    for number, when, then in statuses:
        lines += ['.TP', f'.B {number}', roff(f'{when}. Afterwards: {then}.')]
    lines += ['.PP', roff('Throw away what a run leaves at 5 and 6: a cut SVF text may still play.'), '.SH ENVIRONMENT', '.TP', '.B IJTAG_UNPROVED',
              roff(f'Where it is 1, ./{program} of a checkout builds and runs a program that is not proved, and says so at each call.'), '.SH SEE ALSO',
              roff('README.md and docs/ of the repository: FIRST-CHIP.md, MANUAL.md, TOOLS.md, REFUSALS.md, FORMATS.md, THEOREM.md')]
    return '\n'.join(lines) + '\n'


def completion_of(program, page):
    function = '_' + program.replace('-', '_')
    # a command with several rows has the words of the last one, which goes on where the others end
    longest = {name: its for name, its, _ in page.commands}
    cases = '\n'.join(f'    {name}) kinds=({" ".join(its)}) ;;' for name, its in longest.items())
    return f'''{function}() {{
  local current=${{COMP_WORDS[COMP_CWORD]}} kinds=()
  COMPREPLY=()
  if [ "$COMP_CWORD" = 1 ]; then
    mapfile -t COMPREPLY < <(compgen -W '{" ".join(longest)}' -- "$current")
    return
  fi
  case ${{COMP_WORDS[1]}} in
{cases}
  esac
  _ijtag_word "${{kinds[@]}}"
}}
complete -o filenames -F {function} {program} ./{program}
'''


def completion():
    return f'''# Completion of both programs for bash, made from docs/MANUAL.md and docs/TOOLS.md by .ci/words.py. Use it by:  . share/ijtag.bash

# completes a word of a command that has words of these kinds
_ijtag_word() {{
  local current=${{COMP_WORDS[COMP_CWORD]}} kinds=("$@") kind at icl= pdl= formats='text json'
  [ "${{COMP_WORDS[1]}}" = picture ] && formats='svg dot'
  kind=${{kinds[COMP_CWORD - 2]:-}}
  for at in "${{!kinds[@]}}"; do
    [ "${{kinds[at]}}" = ICL ] && icl=${{COMP_WORDS[at + 2]:-}}
    [ "${{kinds[at]}}" = PDL ] && pdl=${{COMP_WORDS[at + 2]:-}}
  done
  case $kind in
    FORMAT) mapfile -t COMPREPLY < <(compgen -W "$formats" -- "$current") ;;
    KIND) mapfile -t COMPREPLY < <(compgen -W 'pins state all' -- "$current") ;;
    HOW) mapfile -t COMPREPLY < <(compgen -W 'full lean late' -- "$current") ;;
    ICL | PDL | DEVICE | TABLES | SVF | NEW | STEM) mapfile -t COMPREPLY < <(compgen -f -- "$current") ;;
    TOP) mapfile -t COMPREPLY < <(compgen -W "$(sed -n 's/^[[:blank:]]*Module[[:blank:]]*\\([[:alnum:]_]*\\).*/\\1/p' "$icl" 2> /dev/null)" -- "$current") ;;
    PROC) mapfile -t COMPREPLY < <(compgen -W "$(sed -n 's/^[[:blank:]]*iProc[[:blank:]][[:blank:]]*\\([[:alnum:]_]*\\).*/\\1/p' "$pdl" 2> /dev/null)" -- "$current") ;;
  esac
}}

{completion_of('ijtag', manual)}
{completion_of('ijtag-tools', tools)}'''


def tap_names():
    """The hexadecimal digit of each TAP state and its name, as GTKWave reads a translate filter file."""
    cells = [row[at:at + 2] for row in Page('docs/formats/WAVES.md', False).table('`tap`', 'State', '`tap`', 'State') for at in (0, 2)]
    return ''.join(f'{int(code.strip("`"), 2):X} {state}\n' for code, state in cells)


def completed(text):
    """What the completion offers for the last word of a line."""
    function = '_' + text.split()[0].replace('-', '_')
    script = f'. share/ijtag.bash; COMP_WORDS=({text}); COMP_CWORD=$((${{#COMP_WORDS[@]}} - 1)); {function}; printf "%s\\n" "${{COMPREPLY[@]}}"'
    return sorted(subprocess.run(['bash', '-c', script], stdout=subprocess.PIPE, text=True).stdout.split())


made = {'share/ijtag.1': man_page('ijtag', manual, 'verified IEEE 1687 (IJTAG) retargeter: procedures to SVF'),
        'share/ijtag-tools.1': man_page('ijtag-tools', tools, 'what is in an IEEE 1687 network, and SVF in few clocks'),
        'share/ijtag.bash': completion(), 'share/gtkwave.tap': tap_names()}
if '--write' in sys.argv:
    for name, text in made.items():
        pathlib.Path(name).parent.mkdir(exist_ok=True)
        pathlib.Path(name).write_text(text)
wrong = [f'{name} is not what the pages give: run .ci/words.py --write' for name, text in made.items()
         if not pathlib.Path(name).is_file() or pathlib.Path(name).read_text() != text]
on_first_page = []
for name, its, more in re.findall(r'(?m)^\| `(\w+) ([A-Z ]+?)(?: \[([A-Z ]+)\])?` \|', pathlib.Path('README.md').read_text()):
    # words in brackets make a second form
    on_first_page += [(name, its)] + [(name, f'{its} {more}')] * bool(more)
if on_first_page != [(name, ' '.join(its)) for page in (manual, tools) for name, its, _ in page.commands]:
    wrong.append(f'README.md has other words than docs/MANUAL.md and docs/TOOLS.md: {on_first_page}')
undeclared = {it for _, its, _ in manual.commands for it in its} ^ set(manual.words)
if undeclared:
    wrong.append(f'docs/MANUAL.md uses and explains different words: {sorted(undeclared)}')
for text, wanted in (("ijtag m", ['make', 'migrate', 'muxtest']), ("ijtag compile examples/flat/chip.d", ['examples/flat/chip.dev']), ("ijtag audit s examples/sibs/chip.i", ['examples/sibs/chip.icl']),
                     ("ijtag compile examples/flat/chip.icl p d c", ['chip']), ("ijtag audit s i examples/merge/chip.pdl d chip to", ['together']), ("ijtag make ''", []),
                     ("ijtag-tools t", ['tighten']), ("ijtag-tools tighten l", ['late', 'lean']), ("ijtag-tools picture s", ['svg']), ("ijtag-tools wave ''", ['all', 'pins', 'state']), ("ijtag-tools tighten full i examples/merge/chip.pdl d chip to", ['together'])):
    found = completed(text)
    if found != wanted:
        wrong.append(f'completion of {text}: {found}, wanted {wanted}')
for line in wrong:
    print(line)
print(f'words: {len(manual.commands) + len(tools.commands)} commands, {len(wrong)} failed')
sys.exit(1 if wrong else 0)
