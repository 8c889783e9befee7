#!/bin/sh
# Runs what pytest collects here, item by item, on K workers, each of which is one pytest:
#
#     sh pytest_items.sh -n K [WORDS OF XDRUN] [-- WORDS OF PYTEST]
#
# workers.py says how they are started and ended, and pytest_worker.py what an item comes to.
here=$(dirname "$0")
python3 -c 'import importlib.util as util, sys; sys.exit(util.find_spec("pytest") is None)' || {
    echo 'pytest_items.sh: python3 has no pytest' >&2
    exit 4
}
is_pytest=
for word do
    shift
    if [ "$is_pytest$word" = -- ]; then
        is_pytest=yes
        set -- "$@" pytest -- python3 "$here/pytest_worker.py"
    else
        set -- "$@" "$word"
    fi
done
[ "$is_pytest" ] || set -- "$@" pytest -- python3 "$here/pytest_worker.py"
exec python3 "$here/workers.py" "$@"
