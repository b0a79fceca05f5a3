# shellcheck shell=bash
# What `install` and `dist` share: the documents and the examples as they stand outside the repository.

lay_out_pages() { # TOP FOLDER: puts them into the folder, with no link to what stands in the repository alone
    mkdir -p "$2/docs" "$2/bench"
    cp "$1/README.md" "$1/SECURITY.md" "$1/VERSION" "$2"
    cp "$1"/docs/*.md "$2/docs"
    cp "$1/bench/README.md" "$2/bench"
    cp -r "$1/examples" "$2"
    mend_links "$2"
}

mend_links() { # FOLDER: of a link that leads to nothing in the folder its text alone is left
    local page target spelled
    find "$1" -name '*.md' | while IFS= read -r page; do
        { grep -oE '\]\([^()#[:space:]]+[^()[:space:]]*\)' "$page" || true; } | sort -u | while IFS= read -r target; do
            target=${target#"]("}
            target=${target%")"}
            case $target in http:* | https:*) continue ;; esac
            [ ! -e "$(dirname "$page")/${target%%#*}" ] || continue
            spelled=$(printf '%s' "$target" | sed 's/[.[\*^$|]/\\&/g')
            sed -i "s|\[\([^][]*\)\]($spelled)|\1|g" "$page"
        done
    done
}
