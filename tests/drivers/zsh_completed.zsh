# zsh_completed.zsh FOLDER: starts a zsh on a terminal of its own, with the completions of FOLDER, and types each line of
# standard input and a tab, which inserts all offers. Prints the words of each resulting line.
zmodload zsh/zpty
settings=$(mktemp -d)
cat > $settings/.zshrc << 'END'
fpath=($COMPLETIONS $fpath)
autoload -Uz compinit && compinit -u -D
insert_all() { compstate[insert]=all }
complete_all() { comppostfuncs=(insert_all); _main_complete }
zle -C complete_all complete-word complete_all
bindkey '^I' complete_all
kbfeed() { print -r -- kbfeed $@ >> $ZDOTDIR/lines }
kbfeed-convert() { print -r -- kbfeed-convert $@ >> $ZDOTDIR/lines }
kbfeed-collect() { print -r -- kbfeed-collect $@ >> $ZDOTDIR/lines }
END
export ZDOTDIR=$settings COMPLETIONS=$1 TERM=dumb
touch $settings/lines
zpty shell zsh -d -i
while IFS= read -r line; do zpty -w shell $line$'\t'; done
zpty -w shell exit
while zpty -r shell; do :; done > $settings/screen
cat $settings/lines
rm -r $settings
