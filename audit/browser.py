"""Trials of the audit page in Chromium, through chromedriver. audit/test starts it.

A copy of the repository is made a commit of its own, and a log is made up for it that has every line of a green run: its page must be green, open without a script's error,
ask the network for nothing, have no link that leads nowhere, and be searched. The same log with one thing wrong must give a red page whose first line says what.
"""
import pathlib
import re
import shutil
import subprocess
import sys
import tempfile

from selenium import webdriver
from selenium.webdriver.common.by import By
from selenium.webdriver.chrome.service import Service

ROOT = pathlib.Path(__file__).resolve().parent.parent
sys.path.insert(0, str(ROOT / 'audit'))
import log

KIT = 'a-kit logic 0123456789abcdef'
RED, GREEN = 'rgb(155, 28, 28)', 'rgb(30, 107, 58)'
MOST = 300 * 1024       # of a picture


def browser(height=900):
    options = webdriver.ChromeOptions()
    for word in ('--headless=new', '--no-sandbox', '--disable-gpu', '--hide-scrollbars', '--window-size=1200,%d' % height):
        options.add_argument(word)
    options.set_capability('goog:loggingPrefs', {'browser': 'ALL'})
    return webdriver.Chrome(options=options, service=Service('/usr/bin/chromedriver'))


# ---- a copy, and a log of it

def git(folder, *words):
    return subprocess.run(['git', '-C', str(folder), '-c', 'user.name=test', '-c', 'user.email=test', *words], stdout=subprocess.PIPE, check=True, text=True).stdout.strip()


def committed(folder):
    git(folder, 'add', '-A')
    git(folder, 'commit', '-q', '--allow-empty', '-m', 'as it is')
    return git(folder, 'rev-parse', 'HEAD')


def copied(folder):
    shutil.copytree(ROOT, folder, ignore=shutil.ignore_patterns('.git', 'target', 'out', '__pycache__', 'index.html', 'gate.log'), symlinks=True)
    git(folder, 'init', '-q')
    return committed(folder)


def green_log(folder, commit):
    """Every line that a green run of this copy would have, and that the page looks at."""
    crates, edits, programs = log.listed(folder)
    lines = ['gate: commit %s, files as committed, kit %s, 2026-01-01' % (commit, KIT), '5 sabotages, each noticed',
             'the canary: 2 changed definitions, each refused', 'the definitions answer 7 cases as they should']
    for name in sorted(crates):
        lines += ['logic=proved functions=3 sum=%s native=nat,char,string' % KIT.split()[-1], 'rt: %s proved' % name]
    lines += ['rt: must-fail %s/%s.edit: refused, as it must be: src/lib.rt:1:1: error' % edit for edit in sorted(edits)]
    lines += ["rt: %s ran, and wrote what its file stdout has" % name for name in sorted(programs)]
    return '\n'.join(lines + ['rt: ok; handles allowed: none; every proof and must-fail edit was done in this run', '%d passed, 0 failed' % (len(crates) + len(edits))]) + '\n'


# What is done to a green log, and words that the first line must then have.
WRONG_LOGS = [
    ('there is no log', None, 'is missing'),
    ('an empty log', lambda text: '', 'cut short'),
    ('a red verdict', lambda text: re.sub(r'(\d+) passed, 0 failed', r'\1 passed, 1 failed', text), 'The gate failed'),
    ('no verdict', lambda text: text.rpartition('rt: ok')[0], 'cut short'),
    ('words behind the verdict', lambda text: text + 'and more\n', 'cut short'),
    ('a count that is not the number of crates and edits', lambda text: re.sub(r'\d+ passed', '3 passed', text), 'The gate counted 3'),
    ('an edit that was not refused', lambda text: text.replace('refused, as it must be', 'NOT REFUSED: the crate is still proved with this edit', 1), 'NOT REFUSED'),
    ('an edit that the log lacks', lambda text: re.sub(r'rt: must-fail .*\n', '', text, 1), 'says nothing of 1 must-fail edit'),
    ('an edit that is not here', lambda text: text.replace('rt: must-fail ', 'rt: must-fail wire/no_such.edit: refused, as it must be: src/lib.rt:1:1: error\nrt: must-fail ', 1), 'speaks of 1 must-fail edit'),
    ('a crate that the log lacks', lambda text: text.replace('rt: wire proved\n', ''), 'says nothing of 1 crate'),
    ('a crate that was kept', lambda text: text.replace('rt: wire proved\n', 'rt: wire is kept: an earlier run on this machine proved it\n'), 'kept what an earlier run'),
    ('edits of an earlier run', lambda text: text.replace('every proof and must-fail edit was done in this run', 'done in this run: 9 of the 9 proofs'), 'kept what an earlier run'),
    ('an edit that cannot be tried', lambda text: text.replace('refused, as it must be', 'BAD EDIT: its text is not there', 1), 'BAD EDIT'),
    ('a crate that was not proved', lambda text: text.replace('rt: wire proved', 'rt: wire NOT PROVED: its library lists failed'), 'NOT PROVED: its library'),
    ('a program whose run is not told', lambda text: re.sub(r'rt: replay ran\b.*\n', '', text), "says nothing of 1 program's run"),
    ('no sabotages', lambda text: text.replace('5 sabotages, each noticed\n', ''), 'does not tell of the sabotages'),
    ('the definitions not tried on the cases', lambda text: re.sub(r'the definitions answer .*\n', '', text), 'does not tell of the definitions on the cases'),
    ('another logic', lambda text: text.replace('sum=0123456789abcdef', 'sum=ffffffffffffffff', 1), 'another logic'),
    ('no first line', lambda text: text.partition('\n')[2], 'does not say of which commit'),
    ('files that were not committed', lambda text: text.replace('files as committed', 'files not as committed'), 'not those of a commit'),
    ('a commit that is not known', lambda text: re.sub(r'commit \w{40}', 'commit ' + 'e' * 40, text), 'git cannot tell'),
]


# ---- trials

class Trials:
    def __init__(self, driver, folder):
        self.driver, self.folder = driver, folder
        self.commit = copied(folder)
        self.failed = self.tried = 0

    def say(self, what, right, seen=''):
        self.tried += 1
        self.failed += not right
        print('%-6s %s%s' % ('ok' if right else 'WRONG', what, '' if right else ': %s' % (seen,)))

    def open(self, text):
        """Makes the page of a log and opens it: the exit status, the first line, the band's colour."""
        path, page = self.folder / 'audit/gate.log', self.folder / 'audit/index.html'
        path.unlink(missing_ok=True)
        if text is not None:
            path.write_text(text)
        done = subprocess.run([self.folder / 'audit/make'], stdout=subprocess.PIPE, stderr=subprocess.STDOUT, text=True)
        self.driver.get_log('browser')
        self.driver.get(page.as_uri())
        first = self.driver.find_element(By.CSS_SELECTOR, 'body > :first-child > :first-child').text
        return done.returncode, first, self.driver.execute_script("return getComputedStyle(document.querySelector('header')).backgroundColor")

    def is_red(self, what, text, words):
        status, first, colour = self.open(text)
        self.say('red: ' + what, status == 1 and first.startswith('NOT PROVED. ') and words in first and colour == RED, (status, first, colour))

    def green_page(self):
        status, first, colour = self.open(green_log(self.folder, self.commit))
        self.say('a green log gives a green first line', status == 0 and first.startswith('The gate is green: ') and colour == GREEN, (status, first, colour))
        errors = [entry['message'] for entry in self.driver.get_log('browser') if entry['level'] == 'SEVERE']
        self.say('it opens without an error', not errors, errors)
        asked = self.driver.execute_script("""return [...document.querySelectorAll('[src], [srcset], link, object, embed, iframe')].map(part => part.outerHTML)
            .concat([...document.querySelectorAll('style')].flatMap(style => style.textContent.match(/url\\(.*|@import.*/g) || []))""")
        self.say('it asks for no other file', not asked, asked)
        lost, links = self.driver.execute_script("""const links = [...document.querySelectorAll('a[href]')].map(a => a.getAttribute('href'));
            return [[...new Set(links)].filter(href => href[0] !== '#' || !document.getElementById(decodeURIComponent(href.slice(1)))), links.length]""")
        self.say('each of its %d links leads to a place in it' % links, links > 500 and not lost, lost[:5])
        twice = self.driver.execute_script("const ids = [...document.querySelectorAll('[id]')].map(part => part.id); return ids.filter((id, at) => ids.indexOf(id) !== at)")
        self.say('no place is there twice', not twice, twice[:5])
        empty = self.driver.execute_script("return [...document.querySelectorAll('main details')].filter(fold => !fold.querySelector('pre').textContent.trim()).length")
        self.say('no fold is empty', not empty, empty)
        self.driver.find_element(By.CSS_SELECTOR, 'nav a[href="#stops"]').click()
        top = self.driver.execute_script("return document.getElementById('stops').getBoundingClientRect().top")
        self.say('the first link at the side leads to every place where the Rust stops', 0 <= top < 100, top)

    def typed(self, word):
        """What the search says, how many rows are to be seen, how many of them have the word, and how many folds are open."""
        box = self.driver.find_element(By.ID, 'search')
        box.clear()
        box.send_keys(word + ' ' if word else ' ')
        self.driver.execute_async_script('setTimeout(arguments[0], 600)')
        return self.driver.execute_script("""const seen = [...document.querySelectorAll('main .row')].filter(row => row.checkVisibility());
            return [document.getElementById('count').textContent, seen.length, seen.filter(row => row.textContent.toLowerCase().includes(arguments[0])).length,
                    document.querySelectorAll('main details[open]').length]""", word.lower())

    def search(self):
        rows = self.driver.execute_script("return document.querySelectorAll('main .row').length")
        for word in ('unpaired surrogate', 'Demand3.same'):
            said, seen, having, _ = self.typed(word)
            self.say('a search for %s finds: %s' % (word, said), 0 < seen == having < rows and said.split()[0] == str(seen), (said, seen, having, rows))
        said, seen, _, opened = self.typed('high_bytes')
        self.say('a search opens the folds that have the word', opened > 0, (said, opened))
        said, seen, _, opened = self.typed('no such word at all')
        self.say('a search for nonsense finds nothing, and says so', said == 'Nothing has this word.' and not seen, (said, seen))
        said, seen, _, opened = self.typed('')
        self.say('without a word all is as it was', said == '' and seen == rows and not opened, (said, seen, rows, opened))

    def paper(self):
        self.driver.execute_cdp_cmd('Emulation.setEmulatedMedia', {'media': 'print'})
        side, colour = self.driver.execute_script("return [document.querySelector('nav').checkVisibility(), getComputedStyle(document.querySelector('header')).color]")
        self.driver.execute_cdp_cmd('Emulation.setEmulatedMedia', {'media': ''})
        self.say('on paper there is no side, and the verdict keeps its colour', not side and colour == GREEN, (side, colour))

    def changed_files(self):
        """Files that are not those of the log's commit, and names without a text."""
        text = green_log(self.folder, self.commit)
        page = self.folder / 'docs/GATE.md'
        page.write_text(page.read_text() + '\nMeasured again.\n')
        status, first, _ = self.open(text)
        self.say('green: only docs/GATE.md, which is made from the run, is younger', status == 0 and first.startswith('The gate is green'), (status, first))
        before = page.read_text()
        page.write_text(before + '\n`demands/proofs/Demand3.took-bytes`\n')
        self.is_red('a name without a source text, a field of a record', text, 'No source text was found for the name demands/proofs/Demand3.took-bytes')
        page.write_text(before)
        source = self.folder / 'crates/format/specs/Header.antt'
        source.write_text(source.read_text().replace('unfoldable pub read_header', 'unfoldable pub read_the_header'))
        self.is_red('a source that is not the commit\'s', text, '1 file here differs from it: crates/format/specs/Header.antt')
        self.is_red('a name of nothing', green_log(self.folder, committed(self.folder)), 'there is no definition Header.read_header')
        (self.folder / 'docs/STOPS.md').unlink()
        self.is_red('a page that could not be made', text, 'was not made to its end')


def picture(path):
    made = subprocess.run([ROOT / 'audit/make'], stdout=subprocess.PIPE, text=True)
    if made.returncode:
        sys.exit(made.stdout + 'no picture is taken of a red page')
    driver = browser(1000)
    driver.get((ROOT / 'audit/index.html').as_uri())
    taken = driver.get_screenshot_as_png()
    driver.quit()
    if len(taken) > MOST:
        sys.exit('the picture has %d bytes' % len(taken))
    pathlib.Path(path).write_bytes(taken)
    print('%s: %d bytes' % (path, len(taken)))


def main(words):
    if words[:1] == ['--picture'] and len(words) == 2:
        return picture(words[1])
    if words:
        sys.exit('audit/test [--picture FILE.png]')
    driver = browser()
    with tempfile.TemporaryDirectory() as name:
        trials = Trials(driver, pathlib.Path(name) / 'copy')
        trials.green_page()
        trials.search()
        trials.paper()
        for what, change, words in WRONG_LOGS:
            trials.is_red(what, change and change(green_log(trials.folder, trials.commit)), words)
        trials.changed_files()
    driver.quit()
    print('%d trials, %d failed' % (trials.tried, trials.failed))
    sys.exit(1 if trials.failed else 0)


main(sys.argv[1:])
