# names.sh FOLDER..: refuses names that the other scripts can't handle, and folders without files; the status is then 1
export LC_ALL=C
status=0
for folder in "$@"; do
  for path in "$folder"/*; do
    [ -e "$path" ] || [ -L "$path" ] || { echo "names.sh: $folder is empty or isn't there" >&2; status=1; continue; }
    case ${path##*/} in
      [!A-Za-z0-9]* | *[!A-Za-z0-9._+-]* | *.err)
        printf "names.sh: %s: a name has letters, digits, . _ + - only, begins with a letter or digit, and doesn't end in .err\n" "$path" >&2
        status=1 ;;
    esac
  done
done
exit $status
