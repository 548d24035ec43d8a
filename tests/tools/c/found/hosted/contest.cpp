// As programs of contests begin.
#include <bits/stdc++.h>
#include <bsp.h>
using namespace std;

int main()
{
    ios_base::sync_with_stdio(false);
    bsp_begin(bsp_nprocs());
    if (bsp_pid() == 0) {
        int n;
        cin >> n;
        vector<pair<int, string>> all;
        for (int i = 0; i < n; i++) {
            int score;
            string name;
            cin >> name >> score;
            all.emplace_back(-score, name);
        }
        sort(all.begin(), all.end());
        for (auto &[score, name] : all)
            cout << setw(6) << left << name << ' ' << -score << '\n';
        cout << accumulate(all.begin(), all.end(), 0, [](int sum, auto &it) { return sum - it.first; }) << endl;
    }
    bsp_end();
}
