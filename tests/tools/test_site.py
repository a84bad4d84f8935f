"""The site that dev/site makes of the pages: each page is there, each link and each place in a page leads somewhere, and nothing is from outside."""
import html.parser
import json
import pathlib
import shutil
import subprocess
import sys
import urllib.parse

import pytest

TOP = pathlib.Path(__file__).resolve().parent.parent.parent

pytestmark = pytest.mark.skipif(shutil.which('mkdocs') is None, reason='mkdocs is missing')


class Page(html.parser.HTMLParser):
    """The links of a page, what it loads, and its places."""

    def __init__(self, file):
        super().__init__()
        self.links, self.loaded, self.places = [], [], set()
        self.feed(file.read_text())

    def handle_starttag(self, tag, attrs):
        has = dict(attrs)
        self.places |= {has[name] for name in ('id', 'name') if has.get(name)}
        if tag == 'a' and has.get('href'):
            self.links.append(has['href'])
        if tag in ('link', 'script', 'img') and (has.get('href') or has.get('src')):
            self.loaded.append(has.get('href') or has['src'])


@pytest.fixture(scope='module')
def site(tmp_path_factory):
    folder = tmp_path_factory.mktemp('site')
    subprocess.run([sys.executable, TOP / 'dev' / 'site', folder], check=True)
    return folder


@pytest.fixture(scope='module')
def pages(site):
    return {file: Page(file) for file in site.rglob('*.html') if file.name != '404.html'}


def pages_of_tree():
    listed = subprocess.run(['git', 'ls-files', '*.md'], cwd=TOP, check=True, capture_output=True, text=True).stdout.split()
    return [page for page in listed if not page.startswith('tests/')]


def astray(site, pages, file, link):
    """Whether a link of a page leads to nothing in the site."""
    to = urllib.parse.urlsplit(link)
    if to.scheme or to.netloc:
        return False
    target = (file.parent / urllib.parse.unquote(to.path)).resolve() if to.path else file
    if target.is_dir():
        target /= 'index.html'
    return not target.is_file() or bool(to.fragment and target in pages and to.fragment not in pages[target].places)


def test_each_page_of_the_tree_is_a_page_of_the_site(site, pages):
    wanted = {site / ('index.html' if page == 'README.md' else page.removesuffix('.md') + '.html') for page in pages_of_tree()}
    assert not {file for file in wanted if file not in pages and file.with_name('index.html') not in pages}


def test_what_each_call_refuses_is_a_page_of_the_site(site):
    made = (site / 'docs/dev/REFUSALS.html').read_text()
    assert '<code>Service::prepare</code>' in made and 'Calls that take no memory' in made


def test_each_link_leads_somewhere(site, pages):
    assert not [f'{file.relative_to(site)}: {link}' for file, page in pages.items() for link in page.links if astray(site, pages, file, link)]


def test_nothing_is_loaded_from_elsewhere(site, pages):
    loaded = [(file, urllib.parse.urlsplit(what), what) for file, page in pages.items() for what in page.loaded]
    assert loaded
    assert not [f'{file.relative_to(site)}: {what}' for file, to, what in loaded if to.netloc or astray(site, pages, file, what)]


def test_the_search_finds_each_term_of_the_glossary(site):
    texts = ' '.join(entry['text'] + entry['title'] for entry in json.loads((site / 'search/search_index.json').read_text())['docs'])
    terms = [line.split('|')[1].strip().strip('`* ') for line in (TOP / 'docs/GLOSSARY.md').read_text().splitlines() if line.startswith('| ')][1:]
    assert len(terms) > 20
    assert not [term for term in terms if term not in texts]
