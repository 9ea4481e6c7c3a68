" Recordings and their reports. Written by tools/terminal_files.py.
autocmd BufRead,BufNewFile *.rh,*.report setfiletype rh
