" The files of tlplan.
autocmd BufNewFile,BufRead *.domain,*.problem,*.plan,*.proof,*.costs setfiletype tlplan
