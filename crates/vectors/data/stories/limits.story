# Limits of lists and of the stack.

story a list has at most 4096 elements
load lists.S = versions 1 0
spawn l:full [] = pid 1
steps 1 10000 = 8202 ended normal {{'EXIT',{system_limit,[]}},4096}

story the exit with the longest list is caught as a limit
load lists.S = versions 1 0
spawn l:left [] = pid 1
steps 1 10000 = 8204 ended normal {'EXIT',system_limit}

# 65,536 words: the first frame, and 65,535 that are called.
story frames are at most 65536 words
load deep.S = versions 1 0
spawn m:deep [] = pid 1
steps 1 100000 = 65537 ended {system_limit,[]} []

# 65 frames of 1,001 words, and one more word.
story y registers are words too
load deep.S = versions 1 0
spawn m:wide [] = pid 1
steps 1 100000 = 132 ended {system_limit,[]} []
