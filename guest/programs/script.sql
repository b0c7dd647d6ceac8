create table words(number integer primary key, word text, value real);
insert into words(word, value) values('one', 1.5), ('two', 2.25), ('three', sqrt(3));
with recursive n(i) as (select 1 union all select i + 1 from n where i < 500)
insert into words(word, value) select 'n' || i, i * 0.1 from n;
select count(*), sum(value), avg(value) from words;
select * from words order by value desc limit 3;
create index by_word on words(word);
select number, word from words where word like 'n49%';
begin; delete from words where number > 100; rollback;
begin; update words set value = -value where number % 7 = 0; commit;
select total(value), group_concat(word, '+') from words where number < 8;
create virtual table texts using fts4(text);
insert into texts values('a library for guests'), ('no guest in the house');
select text from texts where texts match 'guests';
select printf('%.15g %d %s', 1.0 / 3, 1 << 40, upper('text')), json_extract('{"a": [1, 2]}', '$.a[1]');
pragma integrity_check;
vacuum;
