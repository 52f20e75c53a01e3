# The manual asked for blanks wherever two tokens could be read as one. Only two words need one between them.
cat > close.aria <<'E'
create t trans max_rows=2a:int b:text(3)keys k(a)l(b)
insert t(1,'x')(-2,null)
select t l(null)
update t k(1)set b='y',a=5
select t k
delete t k(5)
insert t(3-4)
E
goes_on 'tokens without blanks' 1 '' close.aria run
tells_text 'tokens without blanks' \
    $'ok\nok 2\nrow -2,null\nok 1\nok 1\nrow -2,null\nrow 5,\'y\'\nok 2\nok 1\nno bad statement at 10\n'
