" A file *.asm is one of mmachine where one of its first 200 lines is a `.segment` with a name and a number, or a `.thread` with its first two numbers.
autocmd BufNewFile,BufRead *.asm call s:Detect()

function! s:Detect() abort
  for line in getline(1, 200)
    if line =~# '^\s*\%(\h\w*\s*:\s*\)\?\.\%(segment\s\+\h\w*\s\+\|thread\s\+\d\+\s\+\)\%(0x\x\+\|\d\+\)'
      set filetype=mmasm
      return
    endif
  endfor
endfunction
