; A symbol that is misspelt in line 3.
start:  xbegin failed
        inc dword [cuont]
        xend
failed: hlt
section .data
count:  dd 0
