#compdef exact
# zsh completion of exact; made by completions/make
local -a rest
if (( CURRENT == 2 )); then
    compadd -- --help signedrank sign rawsigned mcnemar ranksum ansari mood savage median raw kw jt umbrella friedman page cochran fisher linear strata zelen stratranksum kendall runs drill shift merge
    return
fi
case $words[2] in
signedrank) rest=(
    '--tail=:value:(all less greater two)'
    '--columns=:list: '
    '--separator=:value:(comma semicolon tab)'
    '--missing=:value:(refuse drop)'
    '--distribution'
    '--plain'
    '--nodes'
    '--stage=:g: '
    '--parts=:p: '
    '--part=:i: '
) ;;
sign) rest=(
    '--tail=:value:(all less greater two)'
    '--columns=:list: '
    '--separator=:value:(comma semicolon tab)'
    '--missing=:value:(refuse drop)'
    '--distribution'
    '--plain'
    '--nodes'
    '--stage=:g: '
    '--parts=:p: '
    '--part=:i: '
) ;;
rawsigned) rest=(
    '--tail=:value:(all less greater two)'
    '--columns=:list: '
    '--separator=:value:(comma semicolon tab)'
    '--missing=:value:(refuse drop)'
    '--distribution'
    '--plain'
    '--nodes'
    '--stage=:g: '
    '--parts=:p: '
    '--part=:i: '
) ;;
mcnemar) rest=(
    '--tail=:value:(all less greater two)'
    '--columns=:list: '
    '--separator=:value:(comma semicolon tab)'
    '--distribution'
    '--plain'
    '--nodes'
    '--stage=:g: '
    '--parts=:p: '
    '--part=:i: '
) ;;
ranksum) rest=(
    '--tail=:value:(all less greater two)'
    '--order=:labels: '
    '--columns=:list: '
    '--separator=:value:(comma semicolon tab)'
    '--missing=:value:(refuse drop)'
    '--distribution'
    '--plain'
    '--nodes'
    '--stage=:g: '
    '--parts=:p: '
    '--part=:i: '
) ;;
ansari) rest=(
    '--tail=:value:(all less greater two)'
    '--order=:labels: '
    '--columns=:list: '
    '--separator=:value:(comma semicolon tab)'
    '--missing=:value:(refuse drop)'
    '--distribution'
    '--plain'
    '--nodes'
    '--stage=:g: '
    '--parts=:p: '
    '--part=:i: '
) ;;
mood) rest=(
    '--tail=:value:(all less greater two)'
    '--order=:labels: '
    '--columns=:list: '
    '--separator=:value:(comma semicolon tab)'
    '--missing=:value:(refuse drop)'
    '--distribution'
    '--plain'
    '--nodes'
    '--stage=:g: '
    '--parts=:p: '
    '--part=:i: '
) ;;
savage) rest=(
    '--tail=:value:(all less greater two)'
    '--order=:labels: '
    '--columns=:list: '
    '--separator=:value:(comma semicolon tab)'
    '--missing=:value:(refuse drop)'
    '--distribution'
    '--plain'
    '--nodes'
    '--stage=:g: '
    '--parts=:p: '
    '--part=:i: '
) ;;
median) rest=(
    '--tail=:value:(all less greater two)'
    '--order=:labels: '
    '--columns=:list: '
    '--separator=:value:(comma semicolon tab)'
    '--missing=:value:(refuse drop)'
    '--distribution'
    '--plain'
    '--nodes'
    '--stage=:g: '
    '--parts=:p: '
    '--part=:i: '
) ;;
raw) rest=(
    '--tail=:value:(all less greater two)'
    '--order=:labels: '
    '--columns=:list: '
    '--separator=:value:(comma semicolon tab)'
    '--missing=:value:(refuse drop)'
    '--distribution'
    '--plain'
    '--nodes'
    '--stage=:g: '
    '--parts=:p: '
    '--part=:i: '
) ;;
kw) rest=(
    '--tail=:value:(all less greater two)'
    '--scores=:value:(wilcoxon ansari mood savage median raw)'
    '--columns=:list: '
    '--separator=:value:(comma semicolon tab)'
    '--missing=:value:(refuse drop)'
    '--distribution'
    '--plain'
    '--nodes'
    '--stage=:g: '
    '--parts=:p: '
    '--part=:i: '
) ;;
jt) rest=(
    '--tail=:value:(all less greater two)'
    '--order=:labels: '
    '--columns=:list: '
    '--separator=:value:(comma semicolon tab)'
    '--missing=:value:(refuse drop)'
    '--distribution'
    '--plain'
    '--nodes'
    '--stage=:g: '
    '--parts=:p: '
    '--part=:i: '
) ;;
umbrella) rest=(
    '--tail=:value:(all less greater two)'
    '--order=:labels: '
    '--peak=:p: '
    '--columns=:list: '
    '--separator=:value:(comma semicolon tab)'
    '--missing=:value:(refuse drop)'
    '--distribution'
    '--plain'
    '--nodes'
    '--stage=:g: '
    '--parts=:p: '
    '--part=:i: '
) ;;
friedman) rest=(
    '--tail=:value:(all less greater two)'
    '--columns=:list: '
    '--separator=:value:(comma semicolon tab)'
    '--missing=:value:(refuse drop)'
    '--distribution'
    '--plain'
    '--nodes'
    '--stage=:g: '
    '--parts=:p: '
    '--part=:i: '
) ;;
page) rest=(
    '--tail=:value:(all less greater two)'
    '--columns=:list: '
    '--separator=:value:(comma semicolon tab)'
    '--missing=:value:(refuse drop)'
    '--distribution'
    '--plain'
    '--nodes'
    '--stage=:g: '
    '--parts=:p: '
    '--part=:i: '
) ;;
cochran) rest=(
    '--tail=:value:(all less greater two)'
    '--columns=:list: '
    '--separator=:value:(comma semicolon tab)'
    '--missing=:value:(refuse drop)'
    '--distribution'
    '--plain'
    '--nodes'
    '--stage=:g: '
    '--parts=:p: '
    '--part=:i: '
) ;;
fisher) rest=(
    '--tail=:value:(all less greater two)'
    '--columns=:list: '
    '--separator=:value:(comma semicolon tab)'
    '--odds=:p/q: '
    '--distribution'
    '--plain'
    '--nodes'
    '--stage=:g: '
    '--parts=:p: '
    '--part=:i: '
) ;;
linear) rest=(
    '--tail=:value:(all less greater two)'
    '--row-scores=:list: '
    '--column-scores=:list: '
    '--columns=:list: '
    '--separator=:value:(comma semicolon tab)'
    '--distribution'
    '--plain'
    '--nodes'
    '--stage=:g: '
    '--parts=:p: '
    '--part=:i: '
) ;;
strata) rest=(
    '--tail=:value:(all less greater two)'
    '--columns=:list: '
    '--separator=:value:(comma semicolon tab)'
    '--odds=:p/q: '
    '--distribution'
    '--plain'
    '--nodes'
    '--stage=:g: '
    '--parts=:p: '
    '--part=:i: '
) ;;
zelen) rest=(
    '--tail=:value:(all less greater two)'
    '--columns=:list: '
    '--separator=:value:(comma semicolon tab)'
    '--distribution'
    '--plain'
    '--nodes'
    '--stage=:g: '
    '--parts=:p: '
    '--part=:i: '
) ;;
stratranksum) rest=(
    '--tail=:value:(all less greater two)'
    '--order=:labels: '
    '--columns=:list: '
    '--separator=:value:(comma semicolon tab)'
    '--missing=:value:(refuse drop)'
    '--distribution'
    '--plain'
    '--nodes'
    '--stage=:g: '
    '--parts=:p: '
    '--part=:i: '
) ;;
kendall) rest=(
    '--tail=:value:(all less greater two)'
    '--columns=:list: '
    '--separator=:value:(comma semicolon tab)'
    '--missing=:value:(refuse drop)'
    '--distribution'
    '--plain'
    '--nodes'
    '--stage=:g: '
    '--parts=:p: '
    '--part=:i: '
) ;;
runs) rest=(
    '--tail=:value:(all less greater two)'
    '--columns=:list: '
    '--separator=:value:(comma semicolon tab)'
    '--missing=:value:(refuse drop)'
    '--distribution'
    '--plain'
    '--nodes'
    '--stage=:g: '
    '--parts=:p: '
    '--part=:i: '
) ;;
drill) rest=(
    '--number=:k: '
) ;;
shift) rest=(
    '--order=:labels: '
    '--columns=:list: '
    '--separator=:value:(comma semicolon tab)'
    '--missing=:value:(refuse drop)'
    '--miss=:p/q: '
) ;;
merge) rest=(
) ;;
esac
_arguments '1: :' $rest '*:file:_files'
