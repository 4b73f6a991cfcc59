#!/usr/bin/env python3
"""assemble.py TOP KEPT BITS FOLDER: puts the page together of the module that KEPT holds (lab32.wasm or lab64.wasm,
with its verdict and the toolchain's name) and of the lessons, orders and callers' texts of TOP. FOLDER gets evl.html,
one file with all in it, and site/, the same as separate files. tools/page calls it."""
import base64, gzip, hashlib, html, json, os, re, shutil, subprocess, sys

HERE = os.path.dirname(os.path.abspath(__file__))
# Each after those that it imports: the one file has them one after another.
MODULES = ('now', 'program', 'text', 'stays', 'reads', 'states', 'asks', 'kept', 'complete', 'parts', 'editor', 'picture', 'steps',
           'schedules', 'orders', 'console', 'exercise', 'make', 'mine', 'qr', 'share', 'brought', 'bars', 'page')
# A line of a trace in a lesson: a click goes to its step.
STEP = r'<button class="at" data-step="\1">\g<0></button>'
# The text of the page's first lesson; page/stories.md explains it.
START = 'board threads=2 sems=[0]\nT1 attach policy=fifo 10 stage=oob\nT1 begin_get sem=0\nT0 put sem=0\nT1 finish\n'
# Where texts lie: in examples/, or at the top.
FOLDERS = ('examples', '.')


def read(*names):
    with open(os.path.join(*names), encoding='utf-8') as file:
        return file.read()


def folder_of(top, name):
    for above in FOLDERS:
        found = os.path.join(top, above, name)
        if os.path.isdir(found):
            return found
    sys.exit(f'page: there is no folder {name}')


def texts_of(folder):
    """The texts right in a folder, by name."""
    return [os.path.join(folder, name) for name in sorted(os.listdir(folder)) if name.endswith('.toml')]


def inline(text):
    """A paragraph of Markdown as HTML: code, bold, italics; of a link the words alone."""
    text = html.escape(text, quote=False)
    for form, by in ((r'`([^`]*)`', r'<code>\1</code>'), (r'\*\*([^*]+)\*\*', r'<b>\1</b>'),
                     (r'\*([^*]+)\*', r'<i>\1</i>'), (r'\[([^\]]+)\]\([^)]*\)', r'\1')):
        text = re.sub(form, by, text)
    return text


def story_of(title, body):
    parts = [f'<h2>{html.escape(title)}</h2>']
    for block in re.split(r'(```.*?```)', body, flags=re.S):
        if block.startswith('```'):
            text = html.escape(block.strip('`').strip('\n'), quote=False)
            text = re.sub(r'^(\d+) T\d.*$', STEP, text, flags=re.M)
            parts.append('<pre>' + re.sub(r'-&gt; \w+', r'<span class="nb">\g<0></span>', text) + '</pre>')
            continue
        paragraphs = [it.strip() for it in block.split('\n\n')]
        parts += [f'<p>{inline(it)}</p>' for it in paragraphs if it and not it.startswith('![')]
    return ''.join(parts)


def named_stories(page, heads):
    """The sections of a page that begin with the name of a text, as `stalled_inband_stage`: title and story of each."""
    found = {}
    for section in re.split(rf'^{heads} ', page, flags=re.M)[1:]:
        title, _, body = section.partition('\n')
        named = re.match(r'\s*`(\w+)`\. ', body)
        if named:
            title, body = title.strip(), re.split(r'^##? ', body[named.end():], flags=re.M)[0]
            found[named[1]] = (title, story_of(title, body))
    return found


def plain_title(name):
    title = name.replace('_', ' ')
    return title[0].upper() + title[1:]


def exercises():
    for it in json.loads(read(HERE, 'exercises.json')):
        it |= {key: '\n'.join(it[key]) + '\n' for key in ('text', 'solution', 'ask') if key in it}
        it['question'] = ' '.join(it['question'])
        yield {'group': 'Exercises', 'title': it['title'], 'exercise': it}


def texts_with_stories(group, folders, stories):
    """Texts as lessons: first those that have a story, in the first folder that has them, then the first folder's others."""
    named = {name: next(filter(os.path.isfile, (os.path.join(it, name + '.toml') for it in folders)), '') for name in stories}
    for name, file in named.items():
        if not file:
            sys.exit(f'page: there is no text {name}')
        yield {'group': group, 'title': stories[name][0], 'text': read(file), 'story': stories[name][1]}
    for file in texts_of(folders[0]):
        if file not in named.values():
            yield {'group': group, 'title': plain_title(os.path.basename(file)[:-5]), 'text': read(file)}


def with_links(story, titles):
    """A story with a link to the page's own text where it names a file of orders."""
    def link(found):
        title = titles.get(found[1])
        if not title:
            sys.exit(f'page: a lesson names {found[1]}.toml, which this page does not have')
        name = re.sub(r'[^a-z0-9]+', '-', f'orders {title}'.lower()).strip('-')
        return f'<a href="#lesson={name}">{html.escape(title)}</a>'
    story = re.sub(r'<code>examples/orders/(?:\w+/)?(\w+)\.toml</code>', link, story)
    return story.replace('<code>./lab orders</code> prints', 'The tab <b>Orders</b> shows')


def lessons_of(top):
    """The lessons with their text of docs/use/LESSONS.md, the exercises, the orders and the callers' texts."""
    folder = os.path.join(folder_of(top, 'scenarios'), 'lessons')
    stories = {name: it for name, it in named_stories(read(top, 'docs/use/LESSONS.md'), '##').items()
               if os.path.isfile(os.path.join(folder, name + '.toml'))}
    if not stories:
        sys.exit('page: docs/use/LESSONS.md names no lesson')
    own = named_stories(read(HERE, 'stories.md'), '##')
    title, story = own.pop('start')
    lessons = [{'group': 'Lessons', 'title': title, 'text': START, 'story': story}]
    for number, (name, (title, story)) in enumerate(stories.items(), 1):
        text = read(folder, name + '.toml')
        lessons.append({'group': 'Lessons', 'title': f'{number}. {title}', 'text': text, 'story': story})
    orders = folder_of(top, 'orders')
    titles = {os.path.basename(file)[:-5]: plain_title(os.path.basename(file)[:-5]) for file in texts_of(orders)}
    titles |= {name: title for name, (title, _) in own.items()}
    for it in lessons:
        it['story'] = with_links(it['story'], titles)
    lessons += exercises()
    tasks = folder_of(top, 'tasks')
    own_tasks = {name: own.pop(name) for name in [*own] if os.path.isfile(os.path.join(tasks, name + '.toml'))}
    lessons += texts_with_stories('Task sets', (tasks,), own_tasks)
    lessons += texts_with_stories('Orders', (orders, f'{orders}/asked', f'{orders}/steps'), own)
    told = named_stories(read(top, 'docs/use/CALLERS_TEXT.md'), '###')
    lessons += texts_with_stories('Callers', (folder_of(top, 'callers'),), told)
    return lessons


def stored_of(top):
    """What the repository holds of the program's answers: traces, pictures, and what callers' texts are answered."""
    scenarios, stored = folder_of(top, 'scenarios'), []
    folders = (os.path.join(scenarios, 'lessons'), scenarios)
    for folder, words, end in ((folders[1], ['play'], '.trace'), (folders[0], ['play'], '.trace'),
                               (folder_of(top, 'callers'), ['callers'], '.told')):
        for file in texts_of(folder):
            if os.path.isfile(file[:-5] + end):
                stored.append({'name': os.path.basename(file), 'words': words, 'text': read(file),
                               'told': read(file[:-5] + end)})
    pictures = os.path.join(top, 'docs/pictures')
    for name in sorted(os.listdir(pictures)):
        for folder in folders:
            file = os.path.join(folder, name[:-4] + '.toml')
            if name.endswith('.svg') and os.path.isfile(file):
                stored.append({'name': name, 'words': ['draw'], 'text': read(file), 'told': read(pictures, name)})
                break
    return stored


def bundled(files):
    """Modules as one script: their imports go, as do the words `export`; no name is in two of them."""
    text = ''.join(read(HERE, file) for file in files)
    text = re.sub(r"^import (?:.|\n)*?from '[^']*';\n", '', text, flags=re.M)
    return re.sub(r'^export (?=const|let|function|async|class)', '', text, flags=re.M)


def foot_of(top, module, verdict, kit):
    sha = hashlib.sha256(module).hexdigest()
    git = ['git', '-C', top, 'log', '-1', '--format=%cd (commit %h)', '--date=format:%Y.%m.%d']
    said = subprocess.run(git, capture_output=True, text=True, check=False).stdout.strip() or 'no commit'
    is_proved = verdict.startswith('logic=proved ')
    what = 'proved' if is_proved else '<b>UNPROVED</b>'
    parts = [f'The program lab of {html.escape(said)}, {what}, runs in this browser; nothing is sent anywhere.',
             f'Verdict: <code>{html.escape(verdict)}</code>', f'Toolchain: <code>{html.escape(kit)}</code>',
             f'SHA-256 of its code: <code>{sha}</code>',
             'Not proved: clang, the change to WebAssembly, shim.c, lower.py, this page’s own script, the browser.']
    foot = '<details><summary>What this is made of</summary>' + '<br>'.join(parts) + '</details>'
    return is_proved, foot


def page_of(parts):
    return re.sub('@([A-Z]+)@', lambda found: parts[found[1]], read(HERE, 'page.html'))


def whole_page(parts, files, named):
    packed = lambda raw: base64.b64encode(gzip.compress(raw, 9, mtime=0)).decode()
    scripts = [*((name, packed(raw)) for name, raw in named.items()), ('worker.js', bundled(('host.js', 'worker.js')))]
    inside = ''.join(f'<script type="text/plain" id="{name}">{text}</script>\n' for name, text in scripts)
    script = f'<script type="module">{bundled(files)}</script>'
    if inside.count('</script') != len(scripts) or script.count('</script') != 1:
        sys.exit('page: a script holds the end of a script')
    return page_of({**parts, 'STYLE': f'<style>{read(HERE, "page.css")}</style>', 'PARTS': inside + script})


def site_of(site, parts, files, named):
    shutil.rmtree(site, ignore_errors=True)
    os.makedirs(os.path.join(site, 'js'))
    for file in (*files, 'host.js', 'worker.js', 'page.css', 'lab.mjs', 'package.json'):
        shutil.copyfile(os.path.join(HERE, file), os.path.join(site, file))
    for name, raw in named.items():
        with open(os.path.join(site, name), 'wb') as file:
            file.write(raw)
    page = page_of({**parts, 'STYLE': '<link rel="stylesheet" href="page.css">',
                    'PARTS': '<script type="module" src="js/page.js"></script>'})
    with open(os.path.join(site, 'index.html'), 'w', encoding='utf-8') as file:
        file.write(page)


def main():
    if len(sys.argv) != 5:
        sys.exit(__doc__)
    top, kept, bits, folder = sys.argv[1:]
    with open(os.path.join(kept, f'lab{bits}.wasm'), 'rb') as file:
        module = file.read()
    is_proved, foot = foot_of(top, module, read(kept, 'verdict').strip(), read(kept, 'kit').strip())
    why = 'Made with no proof of the program'
    mark = f'<span id="unproved" title="{why}">UNPROVED</span>'
    parts = {'FOOT': foot, 'UNPROVED': '' if is_proved else mark}
    files = [f'js/{name}.js' for name in MODULES]
    lessons, stored = (json.dumps(it, ensure_ascii=False).encode() for it in (lessons_of(top), stored_of(top)))
    os.makedirs(folder, exist_ok=True)
    bank = read(folder_of(top, 'banks'), 'program.toml').encode()
    named = {'lab.wasm': module, 'lessons.json': lessons, 'stored.json': stored, 'program.toml': bank}
    page = whole_page(parts, files, named)
    with open(os.path.join(folder, 'evl.html'), 'w', encoding='utf-8') as file:
        file.write(page)
    site_of(os.path.join(folder, 'site'), parts, files, named)
    print(f'{folder}/evl.html: {len(page.encode())} bytes, {"proved" if is_proved else "UNPROVED"}; '
          f'{folder}/site/: the same as separate files')


if __name__ == '__main__':
    main()
