au BufRead,BufNewFile *.wave setfiletype eventwave
