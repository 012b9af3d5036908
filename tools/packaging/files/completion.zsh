#compdef @NAME@
# Completion of @NAME@ in zsh: its commands, and then files.
local -a commands
commands=(
    'surface:vertices, edges, faces, and the genus of each piece'
    'decide:whether the first walk can be moved to the second'
    'certify:the same, with a list of moves or a denial'
    'loops:the same of closed walks, with no vertex held fast'
    'homology:whether the walks are together the outline of faces'
    'verify:whether a certificate shows what it says'
)
if [[ @NAME@ == homotopy_cli ]]; then
    commands+=(
        'decide-open:decide on a mesh with boundary'
        'certify-open:certify on a mesh with boundary'
        'verify-homology:whether a chain or a cocycle shows what it says'
        'reduce:canonical words of turn words'
        'trial:the answers on a chain of tori'
    )
else
    commands+=('classes:group walks' 'film:a page that plays a certificate')
fi
if (( CURRENT == 2 )); then
    _describe command commands
else
    _files
fi
