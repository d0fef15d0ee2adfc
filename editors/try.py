#!/usr/bin/env python3
"""Tries the highlighting of each editor on all examples and tokens.apl, without a screen.

    editors/try.py [vim] [emacs] [textmate]

Splits each text into tokens, says of each which class it has, and asks the editor what it shows at the token's first and
last character. Prints for each class how many tokens were found, and each token that is shown as something else; the status is 1
where there is one, or where a class has no token. It needs vim, emacs and, for the grammar of TextMate, ruby.
"""
import collections, json, os, pathlib, re, subprocess, sys, tempfile

HERE = pathlib.Path(__file__).resolve().parent
TOKEN = re.compile(r"(?P<comment>%.*)|(?P<variable>[A-Z_]\w*)|(?P<word>[^\W\d]\w*)|(?P<wrong>\d\w*)"
                   r"|(?P<mark>:-|\?-|->|:)|(?P<operator>[\\#=|;])|(?P<punctuation>[.,()\[\]])|(?P<other>\S)")
RESERVED = {"name_type", "type", "pred", "new", "exists", "swap"}
# The classes, and what each editor shows for them.
SHOWN = {
    "comment": ("Comment", ("font-lock-comment-face", "font-lock-comment-delimiter-face"), "comment.line.percentage"),
    "keyword": ("Keyword", ("font-lock-keyword-face",), "keyword.other"),
    "variable": ("Variable", ("font-lock-variable-name-face",), "variable.other"),
    "declared": ("Declared", ("font-lock-type-face",), "entity.name.type"),
    "binder": ("Binder", ("font-lock-constant-face",), "variable.parameter"),
    "applied": ("Applied", ("font-lock-function-name-face",), "entity.name.function"),
    "word": ("Word", ("nil",), "constant.other"),
    "mark": ("Mark", ("font-lock-preprocessor-face",), "keyword.control"),
    "operator": ("Operator", ("font-lock-builtin-face",), "keyword.operator"),
    "punctuation": ("Punctuation", ("nil",), "punctuation"),
    "wrong": ("Wrong", ("font-lock-warning-face",), "invalid.illegal"),
}


def tokens(text):
    """The tokens of a text: line, first and last column (from 1), class, spelling."""
    for number, line in enumerate(text.split("\n"), 1):
        found = list(TOKEN.finditer(line))
        for at, it in enumerate(found):
            kind, word = it.lastgroup, it.group()
            after = found[at + 1].group() if at + 1 < len(found) else ""
            before = found[at - 1].group() if at else ""
            if kind == "word":
                kind = ("keyword" if word in RESERVED else "declared" if after == ":" or before == "pred"
                        else "binder" if after == "\\" else "applied" if after == "(" else "word")
            yield number, it.start() + 1, it.end(), "wrong" if kind == "other" else kind, word


VIM = r"""
set nocompatible encoding=utf-8
let &runtimepath = $EDITORS . '/vim,' . &runtimepath
filetype plugin on
syntax on
for file in split($FILES, ':')
  execute 'edit' file
  let rows = []
  for l in range(1, line('$'))
    let cells = []
    let c = 1
    while c <= strlen(getline(l))
      call add(cells, synIDattr(synID(l, c, 0), 'name'))
      let c += strlen(nr2char(char2nr(strpart(getline(l), c - 1))))
    endwhile
    call add(rows, cells)
  endfor
  call writefile([json_encode(rows)], $OUT, 'a')
endfor
qall!
"""
EMACS = r"""
(load (concat (getenv "EDITORS") "/emacs/alphaprolog-mode.el") nil t)
(dolist (file (split-string (getenv "FILES") ":"))
  (with-current-buffer (find-file-noselect file)
    (font-lock-set-defaults)
    (font-lock-fontify-region (point-min) (point-max))
    (goto-char (point-min))
    (let (rows)
      (while (not (eobp))
        (push (vconcat (mapcar (lambda (p) (let ((f (get-text-property p 'face))) (format "%s" (if (consp f) (car f) f))))
                               (number-sequence (point) (1- (line-end-position))))) rows)
        (forward-line 1))
      (append-to-file (concat (json-encode (vconcat (nreverse rows))) "\n") nil (getenv "OUT")))))
"""
# TextMate's way with a grammar of match rules: at each place the rule that fits first, and of these the first one. Ruby has
# TextMate's regular expressions.
RUBY = r"""
require 'json'
rules = JSON.parse(File.read(ENV['EDITORS'] + '/textmate/alphaprolog.tmLanguage.json', encoding: 'utf-8'))['patterns']
rules.each { |rule| rule['regexp'] = Regexp.new(rule['match']) }
ENV['FILES'].split(':').each do |file|
  rows = File.read(file, encoding: 'utf-8').split("\n", -1).map do |line|
    cells, at = [''] * line.length, 0
    loop do
      found = rules.map { |rule| [rule, rule['regexp'].match(line, at)] }.select { |_, it| it && it.end(0) > it.begin(0) }
      break if found.empty?
      rule, match = found.min_by.with_index { |(_, it), order| [it.begin(0), order] }
      (match.begin(0)...match.end(0)).each { |i| cells[i] = rule['name'] || '' }
      (rule['captures'] || {}).each { |k, it| (match.begin(k.to_i)...match.end(k.to_i)).each { |i| cells[i] = it['name'] } }
      at = match.end(0)
    end
    cells
  end
  File.write(ENV['OUT'], JSON.generate(rows) + "\n", mode: 'a')
end
"""


def ask(editor, files):
    """What the editor shows, for each file, line and column."""
    with tempfile.TemporaryDirectory() as room:
        script, out = pathlib.Path(room, "script"), pathlib.Path(room, "out")
        script.write_text({"vim": VIM, "emacs": EMACS, "textmate": RUBY}[editor])
        words = {"vim": ["vim", "-Nu", "NONE", "-n", "-es", "-S", script], "emacs": ["emacs", "-Q", "--batch", "--eval",
                 "(require 'json)", "-l", script], "textmate": ["ruby", "-Eutf-8", script]}[editor]
        env = dict(os.environ, EDITORS=str(HERE), FILES=":".join(files), OUT=str(out))
        subprocess.run(words, env=env, stdin=subprocess.DEVNULL, check=True, stdout=subprocess.DEVNULL)
        return [json.loads(line) for line in out.read_text().splitlines()]


def fits(editor, kind, shown):
    vim, emacs, textmate = SHOWN[kind]
    return {"vim": shown == "alphaprolog" + vim, "emacs": shown in emacs, "textmate": shown.startswith(textmate + ".")}[editor]


def main():
    files = sorted(str(it) for it in (HERE.parent / "examples").resolve().rglob("*.apl") if it.name != "syntax_not_utf8.apl")
    files.append(str(HERE / "tokens.apl"))
    bad = False
    for editor in sys.argv[1:] or ["vim", "emacs", "textmate"]:
        counts = collections.Counter()
        for file, rows in zip(files, ask(editor, files), strict=True):
            for line, first, last, kind, word in tokens(pathlib.Path(file).read_text()):
                shown = {rows[line - 1][first - 1], rows[line - 1][last - 1]}
                if all(fits(editor, kind, it) for it in shown):
                    counts[kind] += 1
                else:
                    bad = True
                    print(f"{editor}: {file}:{line}:{first}: {word} is a {kind}, and is shown as {' '.join(shown)}")
        print(f"{editor}: {len(files)} files, " + ", ".join(f"{counts[kind]} {kind}" for kind in SHOWN))
        bad |= any(not counts[kind] for kind in SHOWN)
    return 1 if bad else 0


sys.exit(main())
