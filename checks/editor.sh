#!/usr/bin/env bash
# Tries the TextMate grammar on the examples. Then loads their texts in Vim with editors/vim: on every line that is not empty
# some word is told apart. Without Vim that part is left out. It is no part of the gate.
set -eu
top=$(cd "$(dirname "$0")/.." && pwd)
python3 -B "$top/checks/editor.py"
command -v vim >/dev/null || { echo "no vim here"; exit; }
fresh=$(mktemp -d)
trap 'rm -rf "$fresh"' EXIT
cat >"$fresh/plain.vim" <<'END'
syntax on
setlocal filetype=txforest
redir! > $FOUND
for line in range(1, line('$'))
  let columns = filter(range(1, col([line, '$']) - 1), 'synIDattr(synID(' . line . ', v:val, 1), "name") =~ "^forest"')
  if getline(line) =~ '\S' && getline(line) !~ '^\s*\w*[<>{}(),: ]*$' && empty(columns) | echo line . ': ' . getline(line) | endif
endfor
redir END
qa!
END
count=0
for text in $(python3 -B "$top/checks/editor.py" --texts); do
    FOUND=$fresh/found vim -N -u NONE -es --cmd "set runtimepath^=$top/editors/vim" -S "$fresh/plain.vim" "$top/$text"
    if grep -q . "$fresh/found"; then
        echo "$text: no word is told apart"
        cat "$fresh/found"
        exit 1
    fi
    count=$((count + 1))
done
echo "$count texts are told apart word by word"
