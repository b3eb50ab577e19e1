"""Reads the lines of findings with vim's quickfix list and Emacs' compilation mode, as these are installed, and lets
neovim and Emacs with eglot talk to fmtcanon-lsp, which has libclang.
"""

import json
import os
import re
import subprocess
import threading

from tests.commands.tool import Tool
from tests.frame.cases import tests_of
from tests.frame.harness import TIMEOUT, TOP

# What the commands read: each has a finding with a column, with quotes and numbers in its text.
FILES = {
    "in/old.c": '#include <stdio.h>\nvoid f(int n) { printf("%d: %05d\\n", n, n); }\n',
    "in/new.c": '#include <stdio.h>\nvoid f(int n) { printf("%d: %.5d\\n", n, n); }\n',
    "in/size.c": '#include <stdio.h>\n\nvoid f(size_t n) { printf("3: %lu", n); }\n',
    "in/none.c": '#include "none.h"\n',
    "in/de.po": '#, c-format\nmsgid "7: %d"\nmsgstr "\\"8\\": %s"\n',
}
RUNS = [
    ("check", ["in/size.c", "in/none.c"]),
    ("diff", ["in/old.c", "in/new.c"]),
    ("replace", ["--dry-run", "%d: %.5d\\n", "%d: %05d\\n", "in/new.c"]),
    ("po", ["in/de.po"]),
]
# Where they are: the file, the line, the column or 0, and the level as Emacs numbers it.
PLACES = [
    ["in/size.c", 3, 31, 2],
    ["in/none.c", 1, 0, 1],
    ["in/new.c", 2, 24, 2],
    ["in/new.c", 2, 24, 1],
    ["in/de.po", 3, 16, 2],
]
VIM = """\
set nocompatible
cgetfile lines
let found = map(filter(getqflist(), 'v:val.valid'), '[bufname(v:val.bufnr), v:val.lnum, v:val.col]')
call writefile([json_encode(found)], 'found')
quitall!
"""
VIM_RECIPE = """\
set nocompatible
source recipe.vim
edit a.c
set filetype=c
call cursor(4, 15)
redir => said
silent normal K
redir END
let lines = filter(split(said, '[\\n\\r]\\+'), {_, it -> it =~ '^argument\\|%lf of'})
edit de.po
set filetype=po
silent make
let found = map(filter(getqflist(), 'v:val.valid'), '[bufname(v:val.bufnr), v:val.lnum, v:val.col]')
call writefile([json_encode([lines] + found)], 'found')
quitall!
"""
EMACS = """\
(require 'compile)
(require 'json)
(with-current-buffer (get-buffer-create "lines")
  (insert-file-contents "lines")
  (compilation-mode)
  (compilation--ensure-parse (point-max))
  (goto-char (point-min))
  (let (found)
    (while (not (eobp))
      (let ((message (get-text-property (point) 'compilation-message)))
        (when message
          (let ((loc (compilation--message->loc message)))
            (push (vector (caar (compilation--loc->file-struct loc)) (compilation--loc->line loc)
                          (or (compilation--loc->col loc) 0) (compilation--message->type message))
                  found))))
      (forward-line 1))
    (with-temp-file "found" (insert (json-encode (vconcat (nreverse found)))))))
"""
# What editors show of these files by the server: lines from 1 and columns from 0 in bytes, levels and kinds; what the
# first line of a hover says in the first place; and the text after the first action there.
SOURCE = """\
#include <stdio.h>
void f(int n, double x)
{
    printf("é %lf of %d\\n", x, n);
    printf("%5000d\\n", n);
}
"""
SIZE = '#include <stdio.h>\nvoid f(size_t size)\n{\n    printf("é %lu bytes\\n", size);\n}\n'
SERVED = {
    "size.c": (
        SIZE,
        [[4, 15, 1, "size"]],
        "`%lu` ← `size`: argument 1, unsigned long: decimal",
        SIZE.replace("%lu", "%zu"),
    ),
    "a.c": (
        SOURCE,
        [[4, 15, 4, "no-effect"], [5, 12, 2, "WidthTooLarge"]],
        "`%lf` ← `x`: argument 1, double: 6 digits after the decimal point",
        SOURCE.replace("%lf", "%f"),
    ),
    "de.po": (
        FILES["in/de.po"],
        [[3, 15, 1, "types"]],
        "`%s`: argument 1, string: the string",
        FILES["in/de.po"].replace("%s", "%d"),
    ),
}
# The recipes of the page, by their languages, and the names of the files that have them here.
PAGE = TOP / "docs/EDITORS.md"
RECIPES = {"lua": "recipe.lua", "elisp": "recipe.el", "vim": "recipe.vim", "yaml": "config.yaml"}
NEOVIM = """\
local file, line, column = vim.env.SERVED, tonumber(vim.env.LINE), tonumber(vim.env.COLUMN)
dofile("recipe.lua")
vim.cmd("edit " .. file)
vim.bo.filetype = file:match("%.po$") and "po" or "c"
vim.wait(30000, function() return #vim.diagnostic.get(0) > 0 end, 20)
local found = {}
for _, it in ipairs(vim.diagnostic.get(0)) do
  table.insert(found, {it.lnum + 1, it.col, it.severity, it.user_data.lsp.code})
end
vim.api.nvim_win_set_cursor(0, {line, column})
local function ask(method, params)
  for _, answer in pairs(vim.lsp.buf_request_sync(0, method, params, 30000) or {}) do return answer.result end
end
local hover = ask("textDocument/hover", vim.lsp.util.make_position_params())
local range = vim.lsp.util.make_range_params()
range.context = {diagnostics = {}}
local actions = ask("textDocument/codeAction", range)
vim.lsp.util.apply_workspace_edit(actions[1].edit, "utf-16")
local lines = table.concat(vim.api.nvim_buf_get_lines(0, 0, -1, false), "\\n") .. "\\n"
vim.fn.writefile({vim.fn.json_encode({found, hover.contents.value, lines})}, "found")
vim.cmd("quitall!")
"""
EGLOT = """\
(require 'package)
(package-initialize)
(require 'eglot)
(define-derived-mode po-mode text-mode "PO")
(add-to-list 'auto-mode-alist '("\\\\.po\\\\'" . po-mode))
(load (expand-file-name "recipe.el"))
(setq eglot-sync-connect 30 eglot-confirm-server-initiated-edits nil)
(find-file (getenv "SERVED"))
(apply 'eglot (eglot--guess-contact))
(let ((waited 0))
  (while (and (< waited 300) (not (flymake-diagnostics)))
    (accept-process-output nil 0.1)
    (setq waited (1+ waited))))
(defun place (it)
  (save-excursion
    (goto-char (flymake-diagnostic-beg it))
    (let ((given (alist-get 'eglot-lsp-diag (flymake-diagnostic-data it))))
      (vector (line-number-at-pos) (string-bytes (buffer-substring (line-beginning-position) (point)))
              (plist-get given :severity) (plist-get given :code)))))
(let ((found (vconcat (mapcar 'place (sort (flymake-diagnostics)
                                           (lambda (a b) (< (flymake-diagnostic-beg a) (flymake-diagnostic-beg b)))))))
      (server (eglot-current-server)))
  (goto-char (point-min))
  (forward-line (1- (string-to-number (getenv "LINE"))))
  (goto-char (byte-to-position (+ (position-bytes (point)) (string-to-number (getenv "COLUMN")))))
  (let* ((hover (jsonrpc-request server :textDocument/hover (eglot--TextDocumentPositionParams)))
         (place (eglot--pos-to-lsp-position))
         (asked (list :textDocument (eglot--TextDocumentIdentifier) :range (list :start place :end place)
                      :context (list :diagnostics [])))
         (actions (jsonrpc-request server :textDocument/codeAction asked)))
    (eglot--apply-workspace-edit (plist-get (aref actions 0) :edit))
    (let ((text (buffer-string)) (said (plist-get (plist-get hover :contents) :value)))
      (with-temp-file "found" (insert (json-encode (vector found said text)))))))
(kill-emacs 0)
"""


def lines(folder, work, python):
    """The folder in which the file `lines` has what the commands print."""
    for name, text in FILES.items():
        file = work / name
        file.parent.mkdir(exist_ok=True)
        file.write_text(text, encoding="utf-8")
    printed = []
    for command, words in RUNS:
        _, output, fault = Tool(command, folder, work, python).run(*words)
        printed.append(fault.split("1 message judged")[0] if command == "po" else output)
    (work / "lines").write_text("".join(printed), encoding="utf-8")
    return work


def found_by(words, lines, **names):
    """What an editor writes into the file `found`."""
    run = {"cwd": lines, "check": False, "timeout": TIMEOUT, "stdin": subprocess.DEVNULL, "capture_output": True}
    done = subprocess.run(words, **run, env=names or None)
    file = lines / "found"
    return json.loads(file.read_text(encoding="utf-8")) if file.exists() else done.stderr.decode()


def test_vim(lines, tools, trials):
    """Vim's own errorformat finds each place."""
    tools.need("vim", "vim")
    (lines / "read.vim").write_text(VIM, encoding="utf-8")
    found = found_by(["vim", "-u", "NONE", "-es", "-S", "read.vim"], lines)
    trials.expect((lines / "lines").read_text(encoding="utf-8"), found, [it[:3] for it in PLACES])


def test_emacs(lines, tools, trials):
    """Emacs' own patterns find each place, and its level."""
    tools.need("emacs", "emacs-nox")
    (lines / "read.el").write_text(EMACS, encoding="utf-8")
    found = found_by(["emacs", "-Q", "--batch", "-l", "read.el"], lines)
    trials.expect((lines / "lines").read_text(encoding="utf-8"), found, PLACES)


def with_commands(folder, work, python):
    """The environment in which the commands are on the path, and the recipes of the page in a folder."""
    for language, name in RECIPES.items():
        [recipe] = re.findall(
            rf"^```{language}\n(.*?)^```$", PAGE.read_text(encoding="utf-8"), re.DOTALL | re.MULTILINE
        )
        (work / name).write_text(recipe, encoding="utf-8")
    (work / "bin").mkdir()
    for name in ("check", "explain", "lsp", "po"):
        words = " ".join(Tool(name, folder, work, python).words)
        (work / f"bin/fmtcanon-{name}").write_text(f'#!/bin/sh\nexec {words} "$@"\n', encoding="utf-8")
        (work / f"bin/fmtcanon-{name}").chmod(0o755)
    path = f"{work}/bin{os.pathsep}{os.environ['PATH']}"
    return {**Tool("lsp", folder, work).environment, "PATH": path, "HOME": str(work), "XDG_CACHE_HOME": str(work)}


def served(words, folder, work, python, trials):
    """Compares what an editor shows by the server with what is expected of each file."""
    environment = with_commands(folder, work, python)
    for name, (text, places, hover, fixed) in SERVED.items():
        (work / name).write_text(text, encoding="utf-8")
        (work / "found").unlink(missing_ok=True)
        line, column = map(str, places[0][:2])
        found = found_by(words, work, **environment, SERVED=name, LINE=line, COLUMN=column)
        shown = [found[0], found[1][: len(hover)], found[2]] if isinstance(found, list) else found
        trials.expect(f"{name} in {words[0]}", shown, [places, hover, fixed])


def test_neovim(folder, work, python, tools, trials):
    """Neovim shows what the server says, with the recipe of the page."""
    tools.need("nvim", "neovim")
    (work / "serve.lua").write_text(NEOVIM, encoding="utf-8")
    served(["nvim", "-u", "NONE", "-n", "--headless", "-S", "serve.lua", "-c", "cquit"], folder, work, python, trials)


def test_eglot(folder, work, python, tools, trials):
    """Emacs with eglot shows what the server says, with the recipe of the page."""
    tools.need("emacs", "emacs-nox")
    words = ["emacs", "-q", "--batch", "--eval", "(progn (package-initialize) (require 'eglot))"]
    done = subprocess.run(words, check=False, timeout=TIMEOUT, stdin=subprocess.DEVNULL, capture_output=True)
    trials.expect("eglot is there: the package elpa-eglot has it", done.returncode, 0)
    (work / "serve.el").write_text(EGLOT, encoding="utf-8")
    served(["emacs", "-q", "--batch", "-l", "serve.el"], folder, work, python, trials)


def test_vim_recipe(folder, work, python, tools, trials):
    """Without a server, vim explains the format at the cursor and lists findings of a catalog."""
    tools.need("vim", "vim")
    environment = with_commands(folder, work, python)
    (work / "a.c").write_text(SOURCE, encoding="utf-8")
    (work / "de.po").write_text(FILES["in/de.po"], encoding="utf-8")
    (work / "read.vim").write_text(VIM_RECIPE, encoding="utf-8")
    found = found_by(["vim", "-u", "NONE", "-es", "-S", "read.vim"], work, **environment)
    wanted = [["é %lf of %d\\n", "argument 1: x", "argument 2: n"], ["de.po", 3, 16]]
    trials.expect("the recipe for vim", found, wanted)


def test_efm(folder, work, python, tools, trials):
    """With efm-langserver an editor shows the findings of a catalog."""
    tools.need("efm-langserver", "efm-langserver")
    environment = with_commands(folder, work, python)
    text = FILES["in/de.po"]
    (work / "de.po").write_text(text, encoding="utf-8")
    uri = f"file://{work}/de.po"
    document = {"uri": uri, "languageId": "po", "version": 1, "text": text}
    capabilities = {"textDocument": {"publishDiagnostics": {}}}
    given = {"processId": os.getpid(), "rootUri": f"file://{work}", "capabilities": capabilities}
    asked = [{"id": 1, "method": "initialize", "params": given}, {"method": "initialized", "params": {}}]
    asked.append({"method": "textDocument/didOpen", "params": {"textDocument": document}})
    words = ["efm-langserver", "-c", "config.yaml", "-q"]
    found = published(words, work, environment, asked)
    trials.expect(
        "the recipe for efm",
        [(it["range"]["start"], it["severity"]) for it in found],
        [({"line": 2, "character": 15}, 1)],
    )


def published(words, work, environment, asked):
    """The diagnostics that a server publishes after these messages."""
    pipes = {"stdin": subprocess.PIPE, "stdout": subprocess.PIPE, "stderr": subprocess.DEVNULL}
    with subprocess.Popen(words, cwd=work, env=environment, **pipes) as server:
        clock = threading.Timer(TIMEOUT, server.kill)
        clock.start()
        try:
            for message in asked:
                body = json.dumps({"jsonrpc": "2.0", **message}).encode()
                server.stdin.write(b"Content-Length: %d\r\n\r\n%s" % (len(body), body))
                server.stdin.flush()
            while True:
                header = server.stdout.readline()
                if not header:
                    return []
                server.stdout.readline()
                message = json.loads(server.stdout.read(int(header.split(b":")[1])))
                if message.get("method") == "textDocument/publishDiagnostics":
                    return message["params"]["diagnostics"]
        finally:
            clock.cancel()
            server.kill()


Tests = tests_of(globals())
