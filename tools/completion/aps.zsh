# Completes the words of the programs in zsh: source tools/completion/aps.zsh, behind compinit
autoload -U +X bashcompinit && bashcompinit
source "${${(%):-%x}:A:h}/aps.bash"
