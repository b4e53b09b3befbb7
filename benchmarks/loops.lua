local t = 0
for i = 0, 999 do
    for j = 0, 9999 do
        t = (t * 31 + i + j) % 1000003
    end
end
print("main value " .. t)
