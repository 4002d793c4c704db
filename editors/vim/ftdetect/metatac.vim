autocmd BufRead,BufNewFile *.theory,*.script setfiletype metatac
